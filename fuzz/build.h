/*
 * A region built by a fuzzed input: two tables, and up to fifteen acts on a blank region. A few bytes so reach
 * settled pairs, pairs in the middle of an update or of a recovery, and what damage makes of them.
 */
#ifndef BUILD_H
#define BUILD_H

#include <stdint.h>

#include "region.h"
#include "input.h"

enum { TABLES = 2 };

struct build {
	struct region region;
	struct region snapshot;			/* the region when a plan was made */
	uint8_t table[TABLES][MOST_BITMAP];	/* the second is what an update wants */
	uint64_t state;				/* of draw() */
};

/*
 * The bytes: both tables (take_bytes), the number of acts, the acts. An act is its kind, a byte for its place
 * (bits 0-2 the block, modulo the region's size, bits 3-4 the page, modulo P, bit 5 the table or the kind of
 * copy), and what the kind asks for:
 *
 *	0	write a primary: version
 *	1	write a mirror: version
 *	2	spoil a page: way (drawn.h)
 *	3	mark a block as bad
 *	4	set an OOB byte: place, value
 *	5	set a data byte: place (two bytes), value
 *	6	set a status byte: value
 *	7	erase a block
 *	8	draw anew all bytes that must not count
 *	9	plan an update and carry out some steps of it: how many
 *	10	the same with a recovery
 *	11	zeros in all OOB bytes of a page
 */
void build_region(struct build *build, struct input *input, uint64_t n, unsigned size);

#endif
