/*
 * A chip on a rig that cuts its power and lets its steps fail: the regions that a history starts from, with a settled
 * pair or with no good copy at all, and what the steps of a plan, done, cut or failed, leave in a region (document 01,
 * "Histories", and document 02, "Blocks that fail under us"). What the documents leave open is drawn; `state` is that
 * of draw().
 *
 * A failed step leaves its block as a cut one would, so there is one function for both. The premise of document 02 is
 * kept here: a first page that an erase or a page write leaves unreadable shows at least one OOB byte that is not 0.
 * Often it is one alone. What a zero write leaves unreadable may show 64 zeros.
 */
#ifndef RIG_H
#define RIG_H

#include <stdint.h>

#include "region.h"

/* What stands in a block of the start. */
enum filling {
	FILLED_PAIR,		/* primary or mirror of the pair */
	FILLED_BLANK,
	FILLED_SENSELESS,	/* bytes that mean nothing */
	FILLED_BAD,		/* readable as bad, by its mark */
	FILLED_UNREADABLE,
	FILLED_HALF_PRIMARY,	/* a copy of any version and table, with at least one page spoilt */
	FILLED_HALF_MIRROR,
	FILLED_ZEROED,		/* 64 zero OOB bytes on the first page, which reads well: readable as bad */
	FILLED_ZEROED_UNREADABLE,	/* 64 zero OOB bytes on the first page, which is unreadable: readable as bad */
	FILLED_NEARLY_ZEROED,	/* 63 zero OOB bytes on the first page, which is unreadable: not readable as bad */
	FILLED_STRAY,		/* single pages of copies of any kinds and versions, where P is 2 or more */
	FILLINGS,
};

struct start {
	uint64_t n;
	unsigned size;
	uint8_t version;
	unsigned block[KINDS];	/* of the region, where primary and mirror are, if there is a pair */
	enum filling filling[MOST_REGION_BLOCKS];
};

/* What is left of a page when power is cut, or when its step fails. */
enum left { LEFT_AS_IT_WAS, LEFT_BLANK, LEFT_COMPLETE, LEFT_ZEROED, LEFT_UNREADABLE, LEFTS };

/* Draws a start and its region. By rare chance a spoilt copy is a good one all the same, and the pair is not
 * settled: then draw again. */
void rig_start(uint64_t *state, struct start *start, struct region *region);

/* The same with a region of `size` blocks on a chip of n blocks. Beside the pair stand the fillings up to
 * FILLED_HALF_MIRROR: those of a chip on which no step has failed. */
void rig_start_on(uint64_t *state, uint64_t n, unsigned size, struct start *start, struct region *region);

/* Draws a start with no pair, and its region: from none of the blocks to all of them are readable as bad. Of the
 * copies that are not whole some are of `table`, N/4 bytes that are drawn too. By rare chance one is a good copy all
 * the same: then draw again. */
void rig_start_bare(uint64_t *state, struct start *start, struct region *region, uint8_t *table);

/* A version: one about which something turns over, or any. */
uint8_t rig_version(uint64_t *state);

/* Writes a page: it is complete, with anything in OOB 0-13. */
void rig_write(uint64_t *state, struct region *region, unsigned block, unsigned page, const uint8_t *image);

/* Writes zeros to the OOB of a block's first page: these 64 bytes are 0. The page reads well or is unreadable, and its
 * data is as it was, or anything. */
void rig_zero(uint64_t *state, struct region *region, unsigned block);

/* An erase that is cut or fails: each page is as it was, blank or unreadable. */
void rig_cut_erase(uint64_t *state, struct region *region, unsigned block, enum left left[MOST_PAGES]);

/* A page write that is cut or fails: its page is blank, complete or unreadable. */
enum left rig_cut_write(uint64_t *state, struct region *region, unsigned block, unsigned page,
			const uint8_t *image);

/* A zero write that is cut or fails: the first page is as it was, has these 64 bytes 0, or is unreadable. */
enum left rig_cut_zero(uint64_t *state, struct region *region, unsigned block);

#endif
