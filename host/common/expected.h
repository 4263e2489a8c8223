/*
 * The plan that the documents ask for, made from them alone: neither by the library nor by the reference. It is held
 * as what it does and not as a list of steps: which block it zeroes, and which copies it writes where.
 *
 * Document 01 has the first plan, of an update or of a recovery. Document 02, "Blocks that fail under us", has what
 * becomes of it when a step fails.
 */
#ifndef EXPECTED_H
#define EXPECTED_H

#include <stdbool.h>
#include <stdint.h>

#include "region.h"

enum { EXPECTED_BYTES = 4 * 16 };	/* room for the steps of a plan, as a call is lent it */

/* A copy and its block of the region. */
struct placed {
	enum kind kind;
	unsigned block;
};

struct expected {
	uint8_t version;
	bool zeroes;			/* it begins with a zero step .. */
	unsigned zeroed;		/* .. on this block */
	unsigned copies;		/* how many it writes, one after the other: 0 to 2 */
	struct placed copy[KINDS];
	unsigned other;			/* if it writes one, the block of the other */
	bool bad[MOST_REGION_BLOCKS];		/* readable as bad in what the first plan was made from */
	bool failed[MOST_REGION_BLOCKS];	/* a step on it has failed since */
};

/* The first plan of an update of a settled pair, to be written with this version; an empty one if nothing changes. */
void expected_update(struct expected *expected, const struct region *region, const unsigned block[KINDS],
		     uint8_t version, bool changes);

/* The first plan of a recovery. Gives false where there is none that a history may meet: a refusal, or the merge. */
bool expected_recovery(struct expected *expected, const struct region *region);

/* A step has failed, by its number. Gives the refusal, 0 if there is none and the plan has become another. */
unsigned expected_failed(struct expected *expected, const struct region *region, unsigned number);

/* The copy and the page that a step writes, by its number. Gives false if it writes none. */
bool expected_write(const struct expected *expected, const struct region *region, unsigned number, enum kind *kind,
		    unsigned *page);

/* Its number of steps, and its steps as the library tells them: four bytes each. */
unsigned expected_count(const struct expected *expected, const struct region *region);
void expected_steps(const struct expected *expected, const struct region *region, uint8_t steps[EXPECTED_BYTES]);

#endif
