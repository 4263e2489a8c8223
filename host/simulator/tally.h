/*
 * How often each kind of start, event and outcome came in the histories that were run, for each P. A run shows
 * by it that none is missing.
 */
#ifndef TALLY_H
#define TALLY_H

#include <stdbool.h>
#include <stdint.h>

#include "region.h"

enum {
	SIZES = MOST_REGION_BLOCKS - FEWEST_REGION_BLOCKS + 1,	/* of the region */

	/* the most steps of an update and of a recovery, and of one after a failed step */
	UPDATE_STEPS = 2 * MOST_PAGES + 2,
	RECOVERY_STEPS = MOST_PAGES + 1,
	UPDATE_AGAIN_STEPS = UPDATE_STEPS + 1,
	RECOVERY_AGAIN_STEPS = RECOVERY_STEPS + 1,
};

enum tally_row {
	/* the start: the blocks of its region, from the fewest on, its version, and what stands in the blocks beside
	 * the pair */
	START_SIZE,
	START_VERSION_0 = START_SIZE + SIZES,
	START_VERSION_254,
	START_VERSION_255,
	START_BLANK,
	START_SENSELESS,
	START_BAD,
	START_UNREADABLE,
	START_HALF_PRIMARY,
	START_HALF_MIRROR,
	START_ZEROED,
	START_ZEROED_UNREADABLE,
	START_NEARLY_ZEROED,

	/* a start with no good copy: the blocks of its region, what stands in them, and how many are not readable as
	 * bad */
	BARE_SIZE,
	BARE_BLANK = BARE_SIZE + SIZES,
	BARE_SENSELESS,
	BARE_BAD,
	BARE_UNREADABLE,
	BARE_HALF_PRIMARY,
	BARE_HALF_MIRROR,
	BARE_ZEROED,
	BARE_ZEROED_UNREADABLE,
	BARE_NEARLY_ZEROED,
	BARE_STRAY,
	BARE_NONE_LEFT,
	BARE_ONE_LEFT,
	BARE_MORE_LEFT,

	/* attempts at a first primary, with which table, and after another attempt */
	FIRST_ATTEMPT,
	FIRST_FROM_MARKS,
	FIRST_KNOWN_TABLE,
	FIRST_SAME_TABLE,
	FIRST_OTHER_TABLE,
	FIRST_SAME_BLOCK,
	FIRST_OTHER_BLOCK,

	/* their steps done, power cuts and failed steps, and what these left of a page */
	FIRST_ERASE,
	FIRST_WRITE,
	FIRST_ZERO_WELL,
	FIRST_ZERO_UNREADABLE,
	FIRST_CUT_BETWEEN,
	FIRST_CUT_BEFORE_ZERO,
	FIRST_CUT_ERASE_AS_IT_WAS,
	FIRST_CUT_ERASE_BLANK,
	FIRST_CUT_ERASE_UNREADABLE,
	FIRST_CUT_WRITE_BLANK,
	FIRST_CUT_WRITE_COMPLETE,
	FIRST_CUT_WRITE_UNREADABLE,
	FIRST_CUT_NEARLY_ZEROED,
	FIRST_CUT_ZERO_AS_IT_WAS,
	FIRST_CUT_ZERO_ZEROED,
	FIRST_CUT_ZERO_UNREADABLE,
	FIRST_CUT_ZERO_UNREADABLE_ZEROED,
	FIRST_FAILED_ERASE_AS_IT_WAS,
	FIRST_FAILED_ERASE_BLANK,
	FIRST_FAILED_ERASE_UNREADABLE,
	FIRST_FAILED_WRITE_BLANK,
	FIRST_FAILED_WRITE_COMPLETE,
	FIRST_FAILED_WRITE_UNREADABLE,
	FIRST_FAILED_NEARLY_ZEROED,
	FIRST_FAILED_ZERO_AS_IT_WAS,
	FIRST_FAILED_ZERO_ZEROED,
	FIRST_FAILED_ZERO_UNREADABLE,
	FIRST_FAILED_ZERO_UNREADABLE_ZEROED,

	/* what was found, and came of it: the region was read without or with a complete primary; a complete primary
	 * was lost to a zero step, or stayed, by how its last page was written; no block is left for it or for its
	 * mirror; or the history goes on with it, until the pair is settled */
	FIRST_LOOK_NOTHING,
	FIRST_LOOK_COMPLETE,
	FIRST_COMPLETE_ZEROED,
	FIRST_COMPLETE_DONE,
	FIRST_COMPLETE_CUT,
	FIRST_COMPLETE_FAILED,
	FIRST_NO_BLOCK,
	FIRST_NO_TARGET_SIZE,
	FIRST_GOES_ON_SIZE = FIRST_NO_TARGET_SIZE + SIZES,
	FIRST_SETTLED = FIRST_GOES_ON_SIZE + SIZES,
	FIRST_SETTLED_FAILED,

	/* an update is planned, with what is wanted, or is refused for the pair */
	WANTED_FEW,
	WANTED_ANY,
	WANTED_NO_CHANGE,
	UPDATE_CHANGES,
	UPDATE_EMPTY,
	UPDATE_NOT_SETTLED,

	/* a recovery is planned, of what it finds, and after a plan was given up */
	RECOVERY_SETTLED,
	RECOVERY_MIRROR_OLDER,
	RECOVERY_NO_MIRROR,
	RECOVERY_NO_PRIMARY,
	RECOVERY_AFTER_NO_TARGET,
	RECOVERY_AFTER_ZERO_FAILED,

	/* a plan that still had steps was replaced by another; so was one after a failed step */
	UPDATE_REPLACED,
	RECOVERY_REPLACED,
	UPDATE_AGAIN_REPLACED,
	RECOVERY_AGAIN_REPLACED,

	/* calls that are refused for their arguments, by entry and by what was wrong */
	REFUSED_UPDATE_PLAN,
	REFUSED_RECOVERY_PLAN,
	REFUSED_UPDATE_PAGE,
	REFUSED_RECOVERY_PAGE,
	REFUSED_AFTER_FAILED,
	REFUSED_N,
	REFUSED_SIZE,
	REFUSED_LENGTH,
	REFUSED_STATUS,
	REFUSED_ERASE,
	REFUSED_ZERO,
	REFUSED_PAST_END,

	/* calls that are refused for a failed step's number, by entry and by what was wrong */
	REFUSED_LIST_UPDATE_PLAN,
	REFUSED_LIST_RECOVERY_PLAN,
	REFUSED_LIST_UPDATE_PAGE,
	REFUSED_LIST_RECOVERY_PAGE,
	REFUSED_LIST_PAST_END,
	REFUSED_LIST_EMPTY,
	REFUSED_LIST_ZERO,

	/* steps done */
	STEP_ERASE,
	STEP_WRITE,
	STEP_ZERO_WELL,
	STEP_ZERO_UNREADABLE,
	STEP_NONE_LEFT,
	UPDATE_DONE,
	RECOVERY_DONE,
	UPDATE_AGAIN_DONE,
	RECOVERY_AGAIN_DONE,

	/* power cuts, and what they left of a page */
	CUT_BETWEEN_UPDATE,
	CUT_BETWEEN_RECOVERY,
	CUT_BEFORE_ZERO,
	CUT_NONE_LEFT,
	CUT_ERASE_AS_IT_WAS,
	CUT_ERASE_BLANK,
	CUT_ERASE_UNREADABLE,
	CUT_WRITE_BLANK,
	CUT_WRITE_COMPLETE,
	CUT_WRITE_UNREADABLE,
	CUT_NEARLY_ZEROED,
	CUT_ZERO_AS_IT_WAS,
	CUT_ZERO_ZEROED,
	CUT_ZERO_UNREADABLE,
	CUT_ZERO_UNREADABLE_ZEROED,

	/* failed steps, and what they left of a page */
	FAILED_ERASE_AS_IT_WAS,
	FAILED_ERASE_BLANK,
	FAILED_ERASE_UNREADABLE,
	FAILED_WRITE_BLANK,
	FAILED_WRITE_COMPLETE,
	FAILED_WRITE_UNREADABLE,
	FAILED_NEARLY_ZEROED,
	FAILED_ZERO_AS_IT_WAS,
	FAILED_ZERO_ZEROED,
	FAILED_ZERO_UNREADABLE,
	FAILED_ZERO_UNREADABLE_ZEROED,

	/* a plan was made again after a failed step: for which copy, for the how many-eth failed step of the plan, and
	 * on a region of how many blocks */
	AGAIN_UPDATE_FIRST,
	AGAIN_UPDATE_SECOND,
	AGAIN_UPDATE_BOTH,
	AGAIN_MIRROR_OLDER,
	AGAIN_NO_MIRROR,
	AGAIN_NO_PRIMARY,
	AGAIN_SECOND_TIME,
	AGAIN_THIRD_TIME,
	AGAIN_LATER,
	AGAIN_SIZE,

	/* a plan was given up, for want of a block or for a failed zero step */
	NO_TARGET_UPDATE_FIRST = AGAIN_SIZE + SIZES,
	NO_TARGET_UPDATE_SECOND,
	NO_TARGET_RECOVERY,
	NO_TARGET_AT_ONCE,
	NO_TARGET_LATER,
	NO_TARGET_SIZE,
	ZERO_FAILED_UPDATE = NO_TARGET_SIZE + SIZES,
	ZERO_FAILED_RECOVERY,
	ZERO_FAILED_SIZE,

	/* a finished recovery was judged, and found this table; also where a step of the update had failed, or one of a
	 * recovery since, or the update was given up, or its new primary stood in a failed block */
	JUDGED_ONE = ZERO_FAILED_SIZE + SIZES,
	JUDGED_OLD,
	JUDGED_NEW,
	JUDGED_OLD_UPDATE_FAILED,
	JUDGED_NEW_UPDATE_FAILED,
	JUDGED_OLD_RECOVERY_FAILED,
	JUDGED_NEW_RECOVERY_FAILED,
	JUDGED_OLD_GIVEN_UP,
	JUDGED_NEW_GIVEN_UP,
	JUDGED_NEW_IN_FAILED,

	/* power was cut in step i, or step i failed; of a first plan, of one after a failed step, and of an attempt at
	 * a first primary */
	CUT_IN_UPDATE,
	CUT_IN_RECOVERY = CUT_IN_UPDATE + UPDATE_STEPS,
	CUT_IN_UPDATE_AGAIN = CUT_IN_RECOVERY + RECOVERY_STEPS,
	CUT_IN_RECOVERY_AGAIN = CUT_IN_UPDATE_AGAIN + UPDATE_AGAIN_STEPS,
	FAILED_IN_UPDATE = CUT_IN_RECOVERY_AGAIN + RECOVERY_AGAIN_STEPS,
	FAILED_IN_RECOVERY = FAILED_IN_UPDATE + UPDATE_STEPS,
	FAILED_IN_UPDATE_AGAIN = FAILED_IN_RECOVERY + RECOVERY_STEPS,
	FAILED_IN_RECOVERY_AGAIN = FAILED_IN_UPDATE_AGAIN + UPDATE_AGAIN_STEPS,
	CUT_IN_FIRST = FAILED_IN_RECOVERY_AGAIN + RECOVERY_AGAIN_STEPS,
	FAILED_IN_FIRST = CUT_IN_FIRST + RECOVERY_STEPS,
	TALLY_ROWS = FAILED_IN_FIRST + RECOVERY_STEPS,
};

struct tally {
	uint64_t histories;
	uint64_t events;
	uint64_t count[TALLY_ROWS][MOST_PAGES];
};

/* Counts one, on a chip of so many pages a copy. A row from CUT_IN_UPDATE on is that of step `step`. */
void tally_add(struct tally *tally, enum tally_row row, unsigned pages);
void tally_add_step(struct tally *tally, enum tally_row row, unsigned step, unsigned pages);

void tally_print(const struct tally *tally);

/* Did each kind come for each P that has it? Names those that did not. */
bool tally_full(const struct tally *tally);

#endif
