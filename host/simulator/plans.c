/* The events of a history: plans. */
#include <stdio.h>
#include <string.h>

#include "draw.h"
#include "events.h"
#include "hand.h"
#include "reamsickle.h"

/* ---- what is wanted */

/* Is a block good by the last settled table? */
static bool good_by_last(const struct history *history, uint64_t block)
{
	return ream_entry_get(history->checker.last, block) == REAM_ENTRY_GOOD;
}

/* A block that is good by the last settled table, if there is one. */
static uint64_t draw_good_block(struct history *history)
{
	const uint64_t n = history->region.n, first = draw_below(&history->state, n);

	for (uint64_t i = 0; i < n; i++)
		if (good_by_last(history, (first + i) % n))
			return (first + i) % n;
	return first;
}

/* Up to four entries that are not good, and all others good: they stay as they are. */
static void draw_few(struct history *history, uint8_t *wanted)
{
	const uint64_t n = history->region.n;

	memset(wanted, 0xFF, (size_t)n / 4);
	for (uint64_t i = n < 64 ? 1 : 1 + draw_below(&history->state, 4); i > 0; i--) {
		const unsigned entry = (unsigned)draw_below(&history->state, 3);

		ream_entry_set(wanted, draw_good_block(history), entry);
	}
}

/* One of three sorts. No change: only entries that are not good are wanted to be others. */
enum tally_row draw_wanted(struct history *history, uint8_t *wanted)
{
	const uint64_t choice = draw_below(&history->state, 8);

	if (choice < 6) {
		draw_few(history, wanted);
		return WANTED_FEW;
	}
	draw_bytes(&history->state, wanted, (size_t)history->region.n / 4);
	if (choice == 6)
		return WANTED_ANY;
	for (uint64_t block = 0; block < history->region.n; block++)
		if (good_by_last(history, block))
			ream_entry_set(wanted, block, REAM_ENTRY_GOOD);
	return WANTED_NO_CHANGE;
}

/* ---- first plans */

void plan_update(struct history *history)
{
	uint8_t wanted[MOST_BITMAP];
	const enum tally_row sort = draw_wanted(history, wanted);
	const struct request request = { .asked = UPDATE_PLAN, .region = &history->region, .wanted = wanted };
	const uint64_t answer = driver_ask(&history->driver, &history->state, &request);
	const unsigned refusal = ream_refusal(answer);

	if (refusal != REAM_OK) {
		note(history, "update refused, %u: %s", refusal, ream_refusal_text(refusal));
		count(history, UPDATE_NOT_SETTLED);
		require(history, answer == REAM_NOT_SETTLED, "an update is refused for an unsettled pair alone");
		checker_update(&history->checker, &history->region, wanted, true);
		return;
	}
	note(history, "update planned: version %u, %u steps", ream_version(answer), ream_step_count(answer));
	count(history, sort);
	count(history, ream_step_count(answer) == 0 ? UPDATE_EMPTY : UPDATE_CHANGES);
	replace_hand(history);
	history->since = (struct since){ false, false, false };
	checker_update(&history->checker, &history->region, wanted, false);
	take_in_hand(history, UPDATE, wanted, answer);
}

/* What a recovery finds. */
static enum tally_row recovery_case(const struct region *region)
{
	bool good[KINDS] = { false, false };

	for (unsigned block = 0; block < region->size; block++)
		for (unsigned kind = 0; kind < KINDS; kind++)
			good[kind] |= region_good(region, block, (enum kind)kind);
	if (!good[MIRROR])
		return RECOVERY_NO_MIRROR;
	return good[PRIMARY] ? RECOVERY_MIRROR_OLDER : RECOVERY_NO_PRIMARY;
}

void plan_recovery(struct history *history)
{
	const struct request request = { .asked = RECOVERY_PLAN, .region = &history->region };
	const uint64_t answer = driver_ask(&history->driver, &history->state, &request);
	const unsigned refusal = ream_refusal(answer);

	if (refusal != REAM_OK) {
		note(history, "recovery refused, %u: %s", refusal, ream_refusal_text(refusal));
		checker_recovery(&history->checker, &history->region, true, 0);
		return;
	}
	note(history, "recovery planned: version %u, %u steps", ream_version(answer), ream_step_count(answer));
	replace_hand(history);
	history->hand.found = ream_step_count(answer) == 0 ? RECOVERY_SETTLED : recovery_case(&history->region);
	count(history, history->hand.found);
	if (history->given_up != REAM_OK)
		count(history, history->given_up == REAM_NO_TARGET ? RECOVERY_AFTER_NO_TARGET
								   : RECOVERY_AFTER_ZERO_FAILED);
	checker_recovery(&history->checker, &history->region, false, ream_step_count(answer));
	take_in_hand(history, RECOVERY, NULL, answer);
}

/* ---- after a failed step */

/* Is the next step of the plan in hand one of the first of two copies? Then another erase is still to come. */
static bool in_first_copy(const struct hand *hand)
{
	for (unsigned i = hand->next + 1; i < hand->count; i++)
		if (told_step(hand, i).kind == REAM_ERASE)
			return true;
	return false;
}

/* The failed steps' numbers, in words. */
static void list_failed(const struct hand *hand, char text[EVENT_LEN])
{
	size_t len = 0;

	for (unsigned i = 0; i < hand->failures; i++)
		len += (size_t)snprintf(text + len, EVENT_LEN - len, "%s%u", i == 0 ? "" : ", ", hand->failed[i]);
}

static void count_again(struct history *history, bool first)
{
	const struct hand *hand = &history->hand;

	if (hand->holding == UPDATE)
		count(history, first ? AGAIN_UPDATE_FIRST : AGAIN_UPDATE_SECOND);
	else
		count(history, AGAIN_MIRROR_OLDER + (hand->found - RECOVERY_MIRROR_OLDER));
	if (hand->holding == UPDATE && !first && hand->first_failed)
		count(history, AGAIN_UPDATE_BOTH);
	if (hand->failures > 1)
		count(history, hand->failures == 2 ? AGAIN_SECOND_TIME :
			       hand->failures == 3 ? AGAIN_THIRD_TIME : AGAIN_LATER);
	count(history, AGAIN_SIZE + history->region.size - FEWEST_REGION_BLOCKS);
}

static void count_no_target(struct history *history, bool first)
{
	const struct hand *hand = &history->hand;

	if (hand->holding == UPDATE)
		count(history, first ? NO_TARGET_UPDATE_FIRST : NO_TARGET_UPDATE_SECOND);
	else
		count(history, NO_TARGET_RECOVERY);
	count(history, hand->failures == 1 ? NO_TARGET_AT_ONCE : NO_TARGET_LATER);
	count(history, NO_TARGET_SIZE + history->region.size - FEWEST_REGION_BLOCKS);
}

static void count_zero_failed(struct history *history)
{
	count(history, history->hand.holding == UPDATE ? ZERO_FAILED_UPDATE : ZERO_FAILED_RECOVERY);
	count(history, ZERO_FAILED_SIZE + history->region.size - FEWEST_REGION_BLOCKS);
}

/* The plan in hand cannot be made again. It is dropped, as after a cut. */
static void give_up(struct history *history, unsigned refusal, bool first, const char *failed)
{
	const enum holding holding = history->hand.holding;

	note(history, "%s given up after failed steps %s, %u: %s", holding_name(holding), failed, refusal,
	     ream_refusal_text(refusal));
	if (refusal == REAM_NO_TARGET)
		count_no_target(history, first);
	else
		count_zero_failed(history);
	history->given_up = refusal;
	history->since.update_given_up |= holding == UPDATE;
	close_hand(history);
}

void plan_again(struct history *history)
{
	struct hand *hand = &history->hand;
	const bool first = in_first_copy(hand);
	char failed[EVENT_LEN];
	struct request request;
	uint64_t answer;

	hand->failed[hand->failures++] = (uint8_t)hand->next;
	list_failed(hand, failed);
	request = request_again(hand, plan_asked(hand));
	answer = driver_ask(&history->driver, &history->state, &request);
	checker_failed(&history->checker, &history->region, hand->next, ream_refusal(answer));
	require(history, answer == ream_refusal(answer) || ream_refusal(answer) == REAM_OK, "a refusal stands alone");
	if (ream_refusal(answer) != REAM_OK) {
		give_up(history, ream_refusal(answer), first, failed);
		return;
	}
	note(history, "%s planned again after failed steps %s: version %u, %u steps", holding_name(hand->holding),
	     failed, ream_version(answer), ream_step_count(answer));
	count_again(history, first);
	hand->first_failed |= first;
	take_steps(history, answer);
}
