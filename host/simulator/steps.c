/* The events of a history: steps that are done, cut or failed. */
#include <stdio.h>
#include <string.h>

#include "events.h"
#include "hand.h"
#include "reamsickle.h"
#include "rig.h"

/* The text of a step. */
static void note_step(struct history *history, const char *what, const struct ream_step *step, const char *left)
{
	const struct hand *hand = &history->hand;
	char does[EVENT_LEN];

	if (step->kind == REAM_ERASE)
		snprintf(does, sizeof(does), "erase block %u", step->block);
	else if (step->kind == REAM_ZERO)
		snprintf(does, sizeof(does), "zero block %u", step->block);
	else
		snprintf(does, sizeof(does), "write page %u of block %u", step->page, step->block);
	note(history, "%s step %u of the %s: %s%s", what, hand->next, holding_name(hand->holding), does, left);
}

/* ---- done */

static void do_zero(struct history *history, unsigned block)
{
	checker_zero(&history->checker, block);
	rig_zero(&history->state, &history->region, block);
	count(history, region_reads_well(&history->region, block, 0) ? STEP_ZERO_WELL : STEP_ZERO_UNREADABLE);
}

/* The plan in hand has run to its end. */
static void count_done(struct history *history)
{
	const struct hand *hand = &history->hand;

	count(history, hand->holding == UPDATE ? UPDATE_DONE : RECOVERY_DONE);
	if (hand->failures > 0)
		count(history, hand->holding == UPDATE ? UPDATE_AGAIN_DONE : RECOVERY_AGAIN_DONE);
}

void do_step(struct history *history)
{
	const struct ream_step step = told_step(&history->hand, history->hand.next);
	const unsigned block = region_block(history, &step);

	note_step(history, "done:", &step, "");
	if (step.kind == REAM_ERASE) {
		checker_erase(&history->checker, &history->region, block);
		region_erase(&history->region, block);
		count(history, STEP_ERASE);
	} else if (step.kind == REAM_ZERO) {
		do_zero(history, block);
	} else {
		checker_write(&history->checker, &history->region, block, step.page);
		rig_write(&history->state, &history->region, block, step.page, next_page(history));
		count(history, STEP_WRITE);
	}
	history->hand.next++;
	if (history->hand.next < history->hand.count)
		return;
	count_done(history);
	end_hand(history);
}

/* ---- cut or failed */

static const struct broken_off was_cut = {
	.words = "cut in",
	.erase = { [LEFT_AS_IT_WAS] = CUT_ERASE_AS_IT_WAS, [LEFT_BLANK] = CUT_ERASE_BLANK,
		   [LEFT_UNREADABLE] = CUT_ERASE_UNREADABLE },
	.write = { [LEFT_BLANK] = CUT_WRITE_BLANK, [LEFT_COMPLETE] = CUT_WRITE_COMPLETE,
		   [LEFT_UNREADABLE] = CUT_WRITE_UNREADABLE },
	.zero = { [LEFT_AS_IT_WAS] = CUT_ZERO_AS_IT_WAS, [LEFT_ZEROED] = CUT_ZERO_ZEROED,
		  [LEFT_UNREADABLE] = CUT_ZERO_UNREADABLE },
	.nearly_zeroed = CUT_NEARLY_ZEROED,
	.unreadable_zeroed = CUT_ZERO_UNREADABLE_ZEROED,
};

static const struct broken_off has_failed = {
	.words = "failed:",
	.erase = { [LEFT_AS_IT_WAS] = FAILED_ERASE_AS_IT_WAS, [LEFT_BLANK] = FAILED_ERASE_BLANK,
		   [LEFT_UNREADABLE] = FAILED_ERASE_UNREADABLE },
	.write = { [LEFT_BLANK] = FAILED_WRITE_BLANK, [LEFT_COMPLETE] = FAILED_WRITE_COMPLETE,
		   [LEFT_UNREADABLE] = FAILED_WRITE_UNREADABLE },
	.zero = { [LEFT_AS_IT_WAS] = FAILED_ZERO_AS_IT_WAS, [LEFT_ZEROED] = FAILED_ZERO_ZEROED,
		  [LEFT_UNREADABLE] = FAILED_ZERO_UNREADABLE },
	.nearly_zeroed = FAILED_NEARLY_ZEROED,
	.unreadable_zeroed = FAILED_ZERO_UNREADABLE_ZEROED,
};

/* What is left of a page, to follow the text of the step. */
static const char *const left_words[LEFTS] = {
	[LEFT_AS_IT_WAS] = ", as it was", [LEFT_BLANK] = ", blank", [LEFT_COMPLETE] = ", complete",
	[LEFT_ZEROED] = ", zeroed", [LEFT_UNREADABLE] = ", unreadable",
};

/* Is a block's first page, left unreadable, one zero short of being readable as bad? */
static bool nearly_zeroed(const struct history *history, unsigned block)
{
	return region_zeros(&history->region, block) == PAGE_OOB - 1;
}

void leave_erase(struct history *history, const struct broken_off *how, unsigned block, char words[EVENT_LEN])
{
	enum left left[MOST_PAGES];

	words[0] = '\0';
	checker_erase(&history->checker, &history->region, block);
	rig_cut_erase(&history->state, &history->region, block, left);
	for (unsigned page = 0; page < history->region.pages; page++) {
		strcat(words, left_words[left[page]]);
		count(history, how->erase[left[page]]);
	}
	if (left[0] == LEFT_UNREADABLE && nearly_zeroed(history, block))
		count(history, how->nearly_zeroed);
}

const char *leave_write(struct history *history, const struct broken_off *how, unsigned block, unsigned page,
			const uint8_t *image)
{
	enum left left;

	checker_write(&history->checker, &history->region, block, page);
	left = rig_cut_write(&history->state, &history->region, block, page, image);
	count(history, how->write[left]);
	if (left == LEFT_UNREADABLE && page == 0 && nearly_zeroed(history, block))
		count(history, how->nearly_zeroed);
	return left_words[left];
}

const char *leave_zero(struct history *history, const struct broken_off *how, unsigned block)
{
	const enum left left = rig_cut_zero(&history->state, &history->region, block);

	count(history, how->zero[left]);
	if (left == LEFT_UNREADABLE && region_zeroed(&history->region, block))
		count(history, how->unreadable_zeroed);
	return left_words[left];
}

/* The next step of the plan in hand begins and does not run to its end. */
static void break_off(struct history *history, const struct broken_off *how)
{
	const struct ream_step step = told_step(&history->hand, history->hand.next);
	const unsigned block = region_block(history, &step);
	char erased[EVENT_LEN];
	const char *left = erased;

	if (step.kind == REAM_ERASE) {
		leave_erase(history, how, block, erased);
	} else if (step.kind == REAM_ZERO) {
		checker_zero(&history->checker, block);
		left = leave_zero(history, how, block);
	} else {
		left = leave_write(history, how, block, step.page, next_page(history));
	}
	note_step(history, how->words, &step, left);
}

void cut_in_step(struct history *history)
{
	const struct hand *hand = &history->hand;
	const bool update = hand->holding == UPDATE;
	const enum tally_row first = update ? CUT_IN_UPDATE : CUT_IN_RECOVERY;
	const enum tally_row again = update ? CUT_IN_UPDATE_AGAIN : CUT_IN_RECOVERY_AGAIN;

	tally_add_step(history->tally, hand->failures == 0 ? first : again, hand->next, history->region.pages);
	break_off(history, &was_cut);
	close_hand(history);
}

void fail_step(struct history *history)
{
	const struct hand *hand = &history->hand;
	const bool update = hand->holding == UPDATE;
	const enum tally_row first = update ? FAILED_IN_UPDATE : FAILED_IN_RECOVERY;
	const enum tally_row again = update ? FAILED_IN_UPDATE_AGAIN : FAILED_IN_RECOVERY_AGAIN;

	tally_add_step(history->tally, hand->failures == 0 ? first : again, hand->next, history->region.pages);
	break_off(history, &has_failed);
	if (update)
		history->since.update_failed = true;
	else
		history->since.recovery_failed = true;
	plan_again(history);
}

/* ---- cut between steps, and no step left */

void cut_between_steps(struct history *history)
{
	const struct hand *hand = &history->hand;

	note(history, "cut before step %u of the %s", hand->next, holding_name(hand->holding));
	count(history, hand->holding == UPDATE ? CUT_BETWEEN_UPDATE : CUT_BETWEEN_RECOVERY);
	if (told_step(hand, hand->next).kind == REAM_ZERO)
		count(history, CUT_BEFORE_ZERO);
	close_hand(history);
}

void step_none_left(struct history *history)
{
	note(history, "a step, with none left");
	count(history, STEP_NONE_LEFT);
}

void cut_none_left(struct history *history)
{
	note(history, "cut, with no step left");
	count(history, CUT_NONE_LEFT);
}
