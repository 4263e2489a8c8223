/*
 * What is found while a first primary is made, judged by what the header says of it ("A chip's first pair of tables").
 * A page is complete by checker.h, and a block readable as bad by region.h; the reference reads the region too.
 */
#ifndef JUDGE_H
#define JUDGE_H

#include "history.h"

/* The making of a first primary: the attempt in hand. */
struct bringup {
	unsigned attempts;
	struct table known;	/* copies of it that are not whole may stand in the region from the start */
	struct table table;	/* what the attempt writes .. */
	unsigned block;		/* .. and into which block of the region */
	bool failed;		/* a step of it has failed */
	enum tally_row ended;	/* how its last page was written, if that is complete */
	struct region before;	/* the region before its last step */
};

/* Are the first so many pages of the attempt complete? All of them? */
bool pages_complete(const struct history *history, const struct bringup *bringup, unsigned pages);
bool primary_complete(const struct history *history, const struct bringup *bringup);

/* Is a block left for a mirror beside the primary's? */
bool mirror_can_be(const struct history *history, const struct bringup *bringup);

/* Reads the region, as a driver does, and judges what is found. Gives true if that is a copy, by the library. */
bool judge_found(struct history *history, const struct bringup *bringup);

/* A step on the attempt's block is over: no other block has changed. */
void judge_others(struct history *history, const struct bringup *bringup);

/* An erase or a write is over, done, cut or failed. */
void judge_step(struct history *history, const struct bringup *bringup);

#endif
