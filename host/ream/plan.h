/*
 * A plan of the library, with what it is made from: a snapshot, a wanted bitmap of an update, and the steps that
 * failed. Where a step fails the plan becomes another one, made from the same snapshot.
 *
 * The plan of a chip's first pair is a recovery's, made from a snapshot in which the primary stands, with the steps
 * that write this primary before it. No plan of the library has those.
 */
#ifndef PLAN_H
#define PLAN_H

#include <stdbool.h>
#include <stdint.h>

#include "reamsickle.h"
#include "region.h"

/* A failed step costs a block, so fewer of them than the region has blocks are planned around, and one more is
 * refused. */
enum { MOST_FAILURES = MOST_REGION_BLOCKS };

/* The steps that write a first primary: an erase, and its pages. */
enum { MOST_BEFORE = 1 + MOST_PAGES };

struct plan {
	struct region snapshot;
	bool updates;			/* otherwise it recovers */
	uint8_t wanted[MOST_BITMAP];	/* of an update */
	uint8_t failed[MOST_FAILURES];	/* the numbers of the steps that failed, oldest first */
	unsigned failures;
	unsigned before;		/* so many of its steps write a first primary; 0 of any other plan */
	uint8_t steps[REAM_STEP_SIZE * MOST_BEFORE + REAM_STEPS_SIZE];
	unsigned version;
	unsigned count;			/* of its steps */
	unsigned undone;		/* so many of them, the last ones, are not carried out */
};

/* The primary of a first pair. */
struct first {
	const uint8_t *bitmap;		/* N/4 bytes */
	unsigned version;
	unsigned block;			/* of the region, counted from its lowest */
};

/* Plans an update to a wanted bitmap, or a recovery where that is NULL. Gives the refusal, with no step, or
 * REAM_OK. */
unsigned plan_make(struct plan *plan, const struct region *region, const uint8_t *wanted);

/* Plans a first pair: its primary, and the recovery from there. Gives the recovery's refusal, with no step, or
 * REAM_OK. */
unsigned plan_first(struct plan *plan, const struct region *region, const struct first *first);

/* The step of this number has failed: plans anew. Gives the refusal, with no step, or REAM_OK. */
unsigned plan_anew(struct plan *plan, uint8_t number);

struct ream_step plan_step(const struct plan *plan, unsigned i);

/* What a step does, in a word: erase, write or zero. */
const char *plan_does(const struct ream_step *step);

/* The block of the region that a step is on, counted from its lowest. */
unsigned plan_block(const struct plan *plan, const struct ream_step *step);

/* The page that step i writes. */
void plan_page(const struct plan *plan, unsigned i, uint8_t page[PAGE_BYTES]);

/*
 * Goes through all steps that are done once the plan is carried out, in their order: where steps failed, first
 * those that were done before, each with the plan as it stood then; without those that stay undone. Ends where one
 * gives false, and gives that.
 */
bool plan_go_through(const struct plan *plan, bool (*step)(const struct plan *plan, unsigned i, void *to), void *to);

/* Does all these steps on a region. A failed step leaves its block as it was; a zero step leaves data and status
 * of its page as they were. */
void plan_carry_out(const struct plan *plan, struct region *region);

#endif
