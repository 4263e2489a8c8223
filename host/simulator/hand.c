/* The plan in hand of a history. */
#include "hand.h"

#include <stdarg.h>
#include <stdio.h>
#include <string.h>

#include "draw.h"
#include "log.h"

/* ---- what happened */

void note(struct history *history, const char *format, ...)
{
	va_list arguments;

	va_start(arguments, format);
	vsnprintf(history->event[history->events], EVENT_LEN, format, arguments);
	va_end(arguments);
	if (history->logged)
		log_line(history, history->event[history->events]);
	history->events++;
}

void count(struct history *history, enum tally_row row)
{
	tally_add(history->tally, row, history->region.pages);
}

void require(struct history *history, bool holds, const char *rule)
{
	if (!holds && !history->broken)
		history->broken = rule;
}

const char *broken(const struct history *history)
{
	if (history->broken)
		return history->broken;
	return history->driver.broken ? history->driver.broken : history->checker.broken;
}

/* ---- the plan in hand */

const char *holding_name(enum holding holding)
{
	return holding == UPDATE ? "update" : "recovery";
}

struct ream_step told_step(const struct hand *hand, unsigned i)
{
	return ream_step_get(hand->steps + REAM_STEP_SIZE * i);
}

unsigned region_block(const struct history *history, const struct ream_step *step)
{
	return (unsigned)(step->block - region_first(&history->region));
}

void close_hand(struct history *history)
{
	checker_closed(&history->checker, &history->region);
	history->hand.holding = NOTHING;
}

/* Counts what a recovery that ran to its end had to find, and what had failed before. */
static void count_judged(struct history *history, enum found found)
{
	const struct since *since = &history->since;

	if (found == FOUND_ONE) {
		count(history, JUDGED_ONE);
		return;
	}
	count(history, found == FOUND_OLD ? JUDGED_OLD : JUDGED_NEW);
	if (since->update_failed)
		count(history, found == FOUND_OLD ? JUDGED_OLD_UPDATE_FAILED : JUDGED_NEW_UPDATE_FAILED);
	if (since->recovery_failed)
		count(history, found == FOUND_OLD ? JUDGED_OLD_RECOVERY_FAILED : JUDGED_NEW_RECOVERY_FAILED);
	if (since->update_given_up)
		count(history, found == FOUND_OLD ? JUDGED_OLD_GIVEN_UP : JUDGED_NEW_GIVEN_UP);
	if (found == FOUND_NEW && history->checker.in_failed)
		count(history, JUDGED_NEW_IN_FAILED);
}

void end_hand(struct history *history)
{
	const enum holding ended = history->hand.holding;

	close_hand(history);
	if (ended == UPDATE) {
		checker_updated(&history->checker, &history->region);
		return;
	}
	count_judged(history, checker_recovered(&history->checker, &history->region));
	if (history->first)
		count(history, history->since.recovery_failed ? FIRST_SETTLED_FAILED : FIRST_SETTLED);
	history->first = false;
}

/* The step of a plan at which something else happens: often the first, or any; or it is left to each event. */
static unsigned draw_fate(struct history *history, unsigned count)
{
	const uint64_t choice = draw_below(&history->state, 8);

	if (count == 0 || choice < 3)
		return NO_FATE;
	return choice == 3 ? 0 : (unsigned)draw_below(&history->state, count);
}

void take_steps(struct history *history, uint64_t answer)
{
	struct hand *hand = &history->hand;

	memcpy(hand->steps, driver_out(&history->driver), sizeof(hand->steps));
	hand->count = ream_step_count(answer);
	hand->next = 0;
	hand->fate = draw_fate(history, hand->count);
	checker_plan(&history->checker, &history->region, ream_version(answer), hand->steps, hand->count);
}

void take_in_hand(struct history *history, enum holding holding, const uint8_t *wanted, uint64_t answer)
{
	struct hand *hand = &history->hand;

	hand->holding = holding;
	hand->snapshot = history->region;
	if (holding == UPDATE)
		memcpy(hand->wanted, wanted, (size_t)history->region.n / 4);
	hand->failures = 0;
	hand->first_failed = false;
	history->given_up = REAM_OK;
	take_steps(history, answer);
	if (hand->count == 0)
		end_hand(history);
}

void replace_hand(struct history *history)
{
	const struct hand *hand = &history->hand;

	if (hand->holding == NOTHING)
		return;
	count(history, hand->holding == UPDATE ? UPDATE_REPLACED : RECOVERY_REPLACED);
	if (hand->failures > 0)
		count(history, hand->holding == UPDATE ? UPDATE_AGAIN_REPLACED : RECOVERY_AGAIN_REPLACED);
	close_hand(history);
}

enum asked plan_asked(const struct hand *hand)
{
	return hand->holding == UPDATE ? UPDATE_PLAN : RECOVERY_PLAN;
}

enum asked page_asked(const struct hand *hand)
{
	return hand->holding == UPDATE ? UPDATE_PAGE : RECOVERY_PAGE;
}

struct request request_again(const struct hand *hand, enum asked asked)
{
	return (struct request){ .asked = asked, .region = &hand->snapshot, .wanted = hand->wanted,
				 .failed = hand->failed, .failures = hand->failures };
}

uint64_t ask_page(struct history *history, uint64_t step, enum flaw flaw)
{
	struct request request = request_again(&history->hand, page_asked(&history->hand));

	request.step = step;
	request.flaw = flaw;
	return driver_ask(&history->driver, &history->state, &request);
}

const uint8_t *next_page(struct history *history)
{
	const unsigned step = history->hand.next;
	const uint64_t answer = ask_page(history, step, NO_FLAW);

	require(history, answer == REAM_OK, "the page of a write is given");
	checker_page(&history->checker, &history->region, step, driver_out(&history->driver));
	return driver_out(&history->driver);
}
