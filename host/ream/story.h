/*
 * A story: the region of a chip, through updates, power cuts and recoveries, drawn from a seed. Plans and pages
 * are the library's, what a step or a cut leaves on the chip is the rig's (rig.h), and after each event the
 * checker judges (checker.h), which never calls the library.
 *
 * While the pair is settled an update marks one more block as gone bad in use; while it is not, a recovery is
 * planned. A plan is carried out step by step, and power may fail in a step or before it. Where that is asked for
 * the chip may report that a step failed: then it is planned anew, and goes on; or that is refused, and the plan is
 * dropped as by a cut.
 */
#ifndef STORY_H
#define STORY_H

#include <stdbool.h>
#include <stddef.h>
#include <stdint.h>

#include "checker.h"
#include "look.h"
#include "plan.h"
#include "region.h"

/* What happened. */
enum event { EVENT_START, EVENT_UPDATE, EVENT_RECOVERY, EVENT_STEP, EVENT_CUT, EVENT_FAILED };

/* What came of it: where an update or a recovery ran to its end, and where a step failed. */
enum result {
	RESULT_NONE,
	RESULT_UPDATED,
	RESULT_OLD_KEPT,
	RESULT_NEW_KEPT,
	RESULT_ONE_KEPT,
	RESULT_PLANNED_ANEW,
	RESULT_DROPPED,
};

/* The blocks and pages that an event was on; and the room for its words, and for those of its result. */
enum { NOWHERE = MOST_REGION_BLOCKS, ALL_PAGES = MOST_PAGES, EVENT_LEN = 48, RESULT_LEN = 96 };

struct row {
	enum event event;
	unsigned block, page;		/* that the event was on: NOWHERE, and of an erase ALL_PAGES */
	unsigned step;			/* the number of a step that was done, cut or failed, or cut before */
	bool zeroes;			/* it is a zero step */
	unsigned to;			/* the version of a plan that was made */
	unsigned refusal;		/* of planning anew after a failed step; where it is REAM_OK: */
	unsigned steps;			/* how many the plan has, */
	unsigned target;		/* and the chip block that the failed step's copy goes to */
	uint64_t marked;		/* the block that went bad, of an update's plan */
	struct look look[MOST_REGION_BLOCKS];	/* what it left in each block of the region */
	bool settled;
	uint8_t version;		/* of the settled table */
	enum result result;
};

/* What a story is asked for. */
struct setting {
	uint64_t n;			/* the chip's blocks */
	unsigned size;			/* the blocks of its region */
	uint64_t seed;
	uint64_t events;		/* so many, if good blocks to mark do not run out before */
	bool failures;			/* steps may fail */
	bool stop;			/* stops there; otherwise what is begun goes on to its end, without a cut or a
					 * failed step, and the pair is settled */
};

struct story {
	struct setting setting;
	uint64_t state;			/* of draw() */
	struct region region;		/* the chip */
	struct plan plan;		/* the one in hand */
	bool in_hand;
	unsigned next;			/* the step that comes next */
	struct checker checker;
	struct row *row;		/* event by event, with the start first; lent */
	size_t rows, room;
	bool all_marked;		/* it ended because no good block was left to mark */
	const char *broken;		/* the rule that was broken, if any was */
};

/* Tells a row's event in words. */
void story_event(const struct story *story, const struct row *row, char words[EVENT_LEN]);

/* Tells a row's result in words, and why; of RESULT_NONE there are none. */
void story_result(const struct row *row, char words[RESULT_LEN]);
void story_reason(const struct story *story, const struct row *row, char words[RESULT_LEN]);

/* So many rows more than events there may be: the start, and what goes on to its end. */
enum { STORY_MORE = 1 + 2 * MOST_PAGES + 3 };

/* Runs a story; `row` is room for its events and STORY_MORE rows. Gives false, with story->broken set, where a rule
 * is broken. */
bool story_run(struct story *story, const struct setting *setting, struct row *row);

#endif
