/* How often each kind of start, event and outcome came. */
#include "tally.h"

#include <inttypes.h>
#include <stdio.h>

static const char *const names[CUT_IN_UPDATE] = {
	[START_SIZE] = "start with a region of 4 blocks",
	[START_SIZE + 1] = "start with a region of 5 blocks",
	[START_SIZE + 2] = "start with a region of 6 blocks",
	[START_SIZE + 3] = "start with a region of 7 blocks",
	[START_VERSION_0] = "start at version 0",
	[START_VERSION_254] = "start at version 254",
	[START_VERSION_255] = "start at version 255",
	[START_BLANK] = "beside the pair: a blank block",
	[START_SENSELESS] = "beside the pair: senseless bytes",
	[START_BAD] = "beside the pair: readable as bad",
	[START_UNREADABLE] = "beside the pair: unreadable",
	[START_HALF_PRIMARY] = "beside the pair: half a primary",
	[START_HALF_MIRROR] = "beside the pair: half a mirror",
	[START_ZEROED] = "beside the pair: 64 zeros",
	[START_ZEROED_UNREADABLE] = "beside the pair: 64 zeros, unreadable",
	[START_NEARLY_ZEROED] = "beside the pair: 63 zeros, unreadable",
	[BARE_SIZE] = "no good copy: a region of 4 blocks",
	[BARE_SIZE + 1] = "no good copy: a region of 5 blocks",
	[BARE_SIZE + 2] = "no good copy: a region of 6 blocks",
	[BARE_SIZE + 3] = "no good copy: a region of 7 blocks",
	[BARE_BLANK] = "no good copy: a blank block",
	[BARE_SENSELESS] = "no good copy: senseless bytes",
	[BARE_BAD] = "no good copy: readable as bad",
	[BARE_UNREADABLE] = "no good copy: unreadable",
	[BARE_HALF_PRIMARY] = "no good copy: half a primary",
	[BARE_HALF_MIRROR] = "no good copy: half a mirror",
	[BARE_ZEROED] = "no good copy: 64 zeros",
	[BARE_ZEROED_UNREADABLE] = "no good copy: 64 zeros, unreadable",
	[BARE_NEARLY_ZEROED] = "no good copy: 63 zeros, unreadable",
	[BARE_STRAY] = "no good copy: stray pages",
	[BARE_NONE_LEFT] = "no good copy: all blocks bad",
	[BARE_ONE_LEFT] = "no good copy: all blocks bad but one",
	[BARE_MORE_LEFT] = "no good copy: two or more not bad",
	[FIRST_ATTEMPT] = "first primary: attempt",
	[FIRST_FROM_MARKS] = "first primary: table made from marks",
	[FIRST_KNOWN_TABLE] = "first primary: table of stray pages",
	[FIRST_SAME_TABLE] = "first primary: again, same table",
	[FIRST_OTHER_TABLE] = "first primary: again, another table",
	[FIRST_SAME_BLOCK] = "first primary: again, same block",
	[FIRST_OTHER_BLOCK] = "first primary: again, another block",
	[FIRST_ERASE] = "first primary: erase done",
	[FIRST_WRITE] = "first primary: write done",
	[FIRST_ZERO_WELL] = "first primary: zero done, reads well",
	[FIRST_ZERO_UNREADABLE] = "first primary: zero done, unreadable",
	[FIRST_CUT_BETWEEN] = "first primary: cut between steps",
	[FIRST_CUT_BEFORE_ZERO] = "first primary: cut before zero",
	[FIRST_CUT_ERASE_AS_IT_WAS] = "first primary: erase cut, as it was",
	[FIRST_CUT_ERASE_BLANK] = "first primary: erase cut, blank",
	[FIRST_CUT_ERASE_UNREADABLE] = "first primary: erase cut, unreadable",
	[FIRST_CUT_WRITE_BLANK] = "first primary: write cut, blank",
	[FIRST_CUT_WRITE_COMPLETE] = "first primary: write cut, complete",
	[FIRST_CUT_WRITE_UNREADABLE] = "first primary: write cut, unreadable",
	[FIRST_CUT_NEARLY_ZEROED] = "first primary: cut, shows 63 zeros",
	[FIRST_CUT_ZERO_AS_IT_WAS] = "first primary: zero cut, as it was",
	[FIRST_CUT_ZERO_ZEROED] = "first primary: zero cut, 64 bytes 0",
	[FIRST_CUT_ZERO_UNREADABLE] = "first primary: zero cut, unreadable",
	[FIRST_CUT_ZERO_UNREADABLE_ZEROED] = "first primary: zero cut, no read, 0",
	[FIRST_FAILED_ERASE_AS_IT_WAS] = "first primary: erase failed, as it was",
	[FIRST_FAILED_ERASE_BLANK] = "first primary: erase failed, blank",
	[FIRST_FAILED_ERASE_UNREADABLE] = "first primary: erase failed, unreadable",
	[FIRST_FAILED_WRITE_BLANK] = "first primary: write failed, blank",
	[FIRST_FAILED_WRITE_COMPLETE] = "first primary: write failed, complete",
	[FIRST_FAILED_WRITE_UNREADABLE] = "first primary: write failed, unreadable",
	[FIRST_FAILED_NEARLY_ZEROED] = "first primary: failed, shows 63 zeros",
	[FIRST_FAILED_ZERO_AS_IT_WAS] = "first primary: zero failed, as it was",
	[FIRST_FAILED_ZERO_ZEROED] = "first primary: zero failed, 64 bytes 0",
	[FIRST_FAILED_ZERO_UNREADABLE] = "first primary: zero failed, unreadable",
	[FIRST_FAILED_ZERO_UNREADABLE_ZEROED] = "first primary: zero failed, no read, 0",
	[FIRST_LOOK_NOTHING] = "first primary: read, no copy, 7",
	[FIRST_LOOK_COMPLETE] = "first primary: read, complete, 10",
	[FIRST_COMPLETE_ZEROED] = "first primary: complete, then zeroed",
	[FIRST_COMPLETE_DONE] = "first primary: stays, last page done",
	[FIRST_COMPLETE_CUT] = "first primary: stays, last page cut",
	[FIRST_COMPLETE_FAILED] = "first primary: stays, last one failed",
	[FIRST_NO_BLOCK] = "first primary: no block for it",
	[FIRST_NO_TARGET_SIZE] = "first primary: alone of 4 blocks, 11",
	[FIRST_NO_TARGET_SIZE + 1] = "first primary: alone of 5 blocks, 11",
	[FIRST_NO_TARGET_SIZE + 2] = "first primary: alone of 6 blocks, 11",
	[FIRST_NO_TARGET_SIZE + 3] = "first primary: alone of 7 blocks, 11",
	[FIRST_GOES_ON_SIZE] = "first primary: goes on, of 4 blocks",
	[FIRST_GOES_ON_SIZE + 1] = "first primary: goes on, of 5 blocks",
	[FIRST_GOES_ON_SIZE + 2] = "first primary: goes on, of 6 blocks",
	[FIRST_GOES_ON_SIZE + 3] = "first primary: goes on, of 7 blocks",
	[FIRST_SETTLED] = "first pair settled",
	[FIRST_SETTLED_FAILED] = "first pair settled, steps failed",
	[WANTED_FEW] = "update planned, few entries wanted",
	[WANTED_ANY] = "update planned, any bytes wanted",
	[WANTED_NO_CHANGE] = "update planned, no change wanted",
	[UPDATE_CHANGES] = "update planned, with steps",
	[UPDATE_EMPTY] = "update planned, empty",
	[UPDATE_NOT_SETTLED] = "update refused, pair not settled",
	[RECOVERY_SETTLED] = "recovery planned, empty",
	[RECOVERY_MIRROR_OLDER] = "recovery planned, mirror older",
	[RECOVERY_NO_MIRROR] = "recovery planned, no good mirror",
	[RECOVERY_NO_PRIMARY] = "recovery planned, no good primary",
	[RECOVERY_AFTER_NO_TARGET] = "recovery planned after refusal 11",
	[RECOVERY_AFTER_ZERO_FAILED] = "recovery planned after refusal 12",
	[UPDATE_REPLACED] = "update in hand replaced",
	[RECOVERY_REPLACED] = "recovery in hand replaced",
	[UPDATE_AGAIN_REPLACED] = "update with failed steps replaced",
	[RECOVERY_AGAIN_REPLACED] = "recovery with failed steps replaced",
	[REFUSED_UPDATE_PLAN] = "refused call: update plan",
	[REFUSED_RECOVERY_PLAN] = "refused call: recovery plan",
	[REFUSED_UPDATE_PAGE] = "refused call: update page",
	[REFUSED_RECOVERY_PAGE] = "refused call: recovery page",
	[REFUSED_AFTER_FAILED] = "refused call: with failed steps",
	[REFUSED_N] = "refused for N",
	[REFUSED_SIZE] = "refused for the region's size",
	[REFUSED_LENGTH] = "refused for a length",
	[REFUSED_STATUS] = "refused for a status byte",
	[REFUSED_ERASE] = "refused for the step of an erase",
	[REFUSED_ZERO] = "refused for the step of a zero write",
	[REFUSED_PAST_END] = "refused for a step past the end",
	[REFUSED_LIST_UPDATE_PLAN] = "failed steps refused: update plan",
	[REFUSED_LIST_RECOVERY_PLAN] = "failed steps refused: recovery plan",
	[REFUSED_LIST_UPDATE_PAGE] = "failed steps refused: update page",
	[REFUSED_LIST_RECOVERY_PAGE] = "failed steps refused: recovery page",
	[REFUSED_LIST_PAST_END] = "failed steps refused: past the end",
	[REFUSED_LIST_EMPTY] = "failed steps refused: of an empty plan",
	[REFUSED_LIST_ZERO] = "failed steps refused: the zero step",
	[STEP_ERASE] = "step done: erase",
	[STEP_WRITE] = "step done: write",
	[STEP_ZERO_WELL] = "step done: zero, reads well",
	[STEP_ZERO_UNREADABLE] = "step done: zero, unreadable",
	[STEP_NONE_LEFT] = "step with none left",
	[UPDATE_DONE] = "update done to its end",
	[RECOVERY_DONE] = "recovery done to its end",
	[UPDATE_AGAIN_DONE] = "update done to its end, steps failed",
	[RECOVERY_AGAIN_DONE] = "recovery done to its end, steps failed",
	[CUT_BETWEEN_UPDATE] = "cut between steps of an update",
	[CUT_BETWEEN_RECOVERY] = "cut between steps of a recovery",
	[CUT_BEFORE_ZERO] = "cut before a zero step",
	[CUT_NONE_LEFT] = "cut with no step left",
	[CUT_ERASE_AS_IT_WAS] = "erase cut, a page as it was",
	[CUT_ERASE_BLANK] = "erase cut, a page blank",
	[CUT_ERASE_UNREADABLE] = "erase cut, a page unreadable",
	[CUT_WRITE_BLANK] = "write cut, page blank",
	[CUT_WRITE_COMPLETE] = "write cut, page complete",
	[CUT_WRITE_UNREADABLE] = "write cut, page unreadable",
	[CUT_NEARLY_ZEROED] = "cut, first page shows 63 zeros",
	[CUT_ZERO_AS_IT_WAS] = "zero cut, page as it was",
	[CUT_ZERO_ZEROED] = "zero cut, the 64 bytes 0",
	[CUT_ZERO_UNREADABLE] = "zero cut, page unreadable",
	[CUT_ZERO_UNREADABLE_ZEROED] = "zero cut, unreadable, shows 64 zeros",
	[FAILED_ERASE_AS_IT_WAS] = "erase failed, a page as it was",
	[FAILED_ERASE_BLANK] = "erase failed, a page blank",
	[FAILED_ERASE_UNREADABLE] = "erase failed, a page unreadable",
	[FAILED_WRITE_BLANK] = "write failed, page blank",
	[FAILED_WRITE_COMPLETE] = "write failed, page complete",
	[FAILED_WRITE_UNREADABLE] = "write failed, page unreadable",
	[FAILED_NEARLY_ZEROED] = "failed, first page shows 63 zeros",
	[FAILED_ZERO_AS_IT_WAS] = "zero failed, page as it was",
	[FAILED_ZERO_ZEROED] = "zero failed, the 64 bytes 0",
	[FAILED_ZERO_UNREADABLE] = "zero failed, page unreadable",
	[FAILED_ZERO_UNREADABLE_ZEROED] = "zero failed, unreadable, shows 64 zeros",
	[AGAIN_UPDATE_FIRST] = "planned again: update, first copy",
	[AGAIN_UPDATE_SECOND] = "planned again: update, second copy",
	[AGAIN_UPDATE_BOTH] = "planned again: update, both copies",
	[AGAIN_MIRROR_OLDER] = "planned again: recovery, mirror older",
	[AGAIN_NO_MIRROR] = "planned again: recovery, no mirror",
	[AGAIN_NO_PRIMARY] = "planned again: recovery, no primary",
	[AGAIN_SECOND_TIME] = "planned again: for a second failed step",
	[AGAIN_THIRD_TIME] = "planned again: for a third",
	[AGAIN_LATER] = "planned again: for a fourth or later",
	[AGAIN_SIZE] = "planned again: a region of 4 blocks",
	[AGAIN_SIZE + 1] = "planned again: a region of 5 blocks",
	[AGAIN_SIZE + 2] = "planned again: a region of 6 blocks",
	[AGAIN_SIZE + 3] = "planned again: a region of 7 blocks",
	[NO_TARGET_UPDATE_FIRST] = "given up, 11: update, first copy",
	[NO_TARGET_UPDATE_SECOND] = "given up, 11: update, second copy",
	[NO_TARGET_RECOVERY] = "given up, 11: recovery",
	[NO_TARGET_AT_ONCE] = "given up, 11: for the first failed step",
	[NO_TARGET_LATER] = "given up, 11: for a later one",
	[NO_TARGET_SIZE] = "given up, 11: a region of 4 blocks",
	[NO_TARGET_SIZE + 1] = "given up, 11: a region of 5 blocks",
	[NO_TARGET_SIZE + 2] = "given up, 11: a region of 6 blocks",
	[NO_TARGET_SIZE + 3] = "given up, 11: a region of 7 blocks",
	[ZERO_FAILED_UPDATE] = "given up, 12: update",
	[ZERO_FAILED_RECOVERY] = "given up, 12: recovery",
	[ZERO_FAILED_SIZE] = "given up, 12: a region of 4 blocks",
	[ZERO_FAILED_SIZE + 1] = "given up, 12: a region of 5 blocks",
	[ZERO_FAILED_SIZE + 2] = "given up, 12: a region of 6 blocks",
	[ZERO_FAILED_SIZE + 3] = "given up, 12: a region of 7 blocks",
	[JUDGED_ONE] = "recovered: the one table",
	[JUDGED_OLD] = "recovered: the old table",
	[JUDGED_NEW] = "recovered: the new table",
	[JUDGED_OLD_UPDATE_FAILED] = "recovered: old, the update failed",
	[JUDGED_NEW_UPDATE_FAILED] = "recovered: new, the update failed",
	[JUDGED_OLD_RECOVERY_FAILED] = "recovered: old, a recovery failed",
	[JUDGED_NEW_RECOVERY_FAILED] = "recovered: new, a recovery failed",
	[JUDGED_OLD_GIVEN_UP] = "recovered: old, the update given up",
	[JUDGED_NEW_GIVEN_UP] = "recovered: new, the update given up",
	[JUDGED_NEW_IN_FAILED] = "recovered: new, from a failed block",
};

/* The rows of steps, from the first of each sort on. */
static const struct {
	enum tally_row row;
	const char *what, *of;
	unsigned copies;	/* its plan writes so many .. */
	unsigned zeros;		/* .. after so many zero steps */
} of_steps[] = {
	{ CUT_IN_UPDATE, "cut in", "an update", 2, 0 },
	{ CUT_IN_RECOVERY, "cut in", "a recovery", 1, 0 },
	{ CUT_IN_UPDATE_AGAIN, "cut in", "an update, again", 2, 1 },
	{ CUT_IN_RECOVERY_AGAIN, "cut in", "a recovery, again", 1, 1 },
	{ FAILED_IN_UPDATE, "failed:", "an update", 2, 0 },
	{ FAILED_IN_RECOVERY, "failed:", "a recovery", 1, 0 },
	{ FAILED_IN_UPDATE_AGAIN, "failed:", "an update, again", 2, 1 },
	{ FAILED_IN_RECOVERY_AGAIN, "failed:", "a recovery, again", 1, 1 },
	{ CUT_IN_FIRST, "cut in", "a first primary", 1, 0 },
	{ FAILED_IN_FIRST, "failed:", "a first primary", 1, 0 },
};

/* Which of them a row from CUT_IN_UPDATE on is of. */
static unsigned sort_of(unsigned row)
{
	unsigned i = sizeof(of_steps) / sizeof(of_steps[0]) - 1;

	while (row < of_steps[i].row)
		i--;
	return i;
}

void tally_add(struct tally *tally, enum tally_row row, unsigned pages)
{
	tally->count[row][pages - 1]++;
}

void tally_add_step(struct tally *tally, enum tally_row row, unsigned step, unsigned pages)
{
	tally->count[row + step][pages - 1]++;
}

/* Is there such a thing with so many pages a copy? */
static bool exists(unsigned row, unsigned pages)
{
	unsigned i;

	if (row < CUT_IN_UPDATE)
		return row != BARE_STRAY || pages > 1;
	i = sort_of(row);
	return row - of_steps[i].row < of_steps[i].copies * (pages + 1) + of_steps[i].zeros;
}

/* A row's name, in a room of LEN bytes. */
enum { LEN = 48 };

static const char *name(unsigned row, char *room)
{
	unsigned i;

	if (row < CUT_IN_UPDATE)
		return names[row];
	i = sort_of(row);
	snprintf(room, LEN, "%s step %u of %s", of_steps[i].what, row - of_steps[i].row, of_steps[i].of);
	return room;
}

void tally_print(const struct tally *tally)
{
	char room[LEN];

	printf("%-40s", "");
	for (unsigned pages = 1; pages <= MOST_PAGES; pages++)
		printf("%7s %u", "P =", pages);
	printf("\n");
	for (unsigned row = 0; row < TALLY_ROWS; row++) {
		printf("%-40s", name(row, room));
		for (unsigned pages = 1; pages <= MOST_PAGES; pages++) {
			if (exists(row, pages))
				printf("%9" PRIu64, tally->count[row][pages - 1]);
			else
				printf("%9s", "-");
		}
		printf("\n");
	}
}

bool tally_full(const struct tally *tally)
{
	char room[LEN];
	bool full = true;

	for (unsigned row = 0; row < TALLY_ROWS; row++) {
		for (unsigned pages = 1; pages <= MOST_PAGES; pages++) {
			if (!exists(row, pages) || tally->count[row][pages - 1] > 0)
				continue;
			printf("histories: none of these came with P = %u: %s\n", pages, name(row, room));
			full = false;
		}
	}
	return full;
}
