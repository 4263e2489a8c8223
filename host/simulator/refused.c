/* The events of a history: calls that are refused, and change nothing. */
#include <inttypes.h>
#include <string.h>

#include "draw.h"
#include "events.h"
#include "hand.h"
#include "reamsickle.h"

static const char *const asked_words[ASKS] = {
	[UPDATE_PLAN] = "update", [RECOVERY_PLAN] = "recovery", [UPDATE_PAGE] = "update's page",
	[RECOVERY_PAGE] = "recovery's page",
};

/* ---- for their arguments */

/* What can be refused: planning, and with a plan in hand its pages, and planning it again. */
struct refusable {
	enum asked asked;
	bool again;
};

static struct refusable draw_refusable(struct history *history)
{
	const struct hand *hand = &history->hand;
	const uint64_t choice = draw_below(&history->state, hand->holding == NOTHING ? 2 : 6);

	if (choice < 2)
		return (struct refusable){ choice == 0 ? UPDATE_PLAN : RECOVERY_PLAN, false };
	return (struct refusable){ choice < 4 ? page_asked(hand) : plan_asked(hand), true };
}

/* Makes the call with a flaw, and gives the answer. */
static uint64_t ask_flawed(struct history *history, const struct refusable *refusable, enum flaw flaw)
{
	uint8_t wanted[MOST_BITMAP];
	struct request request = { .asked = refusable->asked, .region = &history->region, .wanted = wanted };

	if (refusable->again)
		request = request_again(&history->hand, refusable->asked);
	else
		draw_wanted(history, wanted);
	request.step = history->hand.next;
	request.flaw = flaw;
	return driver_ask(&history->driver, &history->state, &request);
}

void refuse_arguments(struct history *history)
{
	static const enum tally_row of_asked[ASKS] = {
		[UPDATE_PLAN] = REFUSED_UPDATE_PLAN, [RECOVERY_PLAN] = REFUSED_RECOVERY_PLAN,
		[UPDATE_PAGE] = REFUSED_UPDATE_PAGE, [RECOVERY_PAGE] = REFUSED_RECOVERY_PAGE,
	};
	static const enum tally_row of_flaw[] = {
		[FLAW_N] = REFUSED_N, [FLAW_SIZE] = REFUSED_SIZE, [FLAW_LENGTH] = REFUSED_LENGTH,
		[FLAW_STATUS] = REFUSED_STATUS,
	};
	const enum flaw flaw = (enum flaw)(1 + draw_below(&history->state, FLAWS - 1));
	const struct refusable refusable = draw_refusable(history);
	const uint64_t answer = ask_flawed(history, &refusable, flaw);

	note(history, "%s refused for its arguments, %u", asked_words[refusable.asked], ream_refusal(answer));
	count(history, of_asked[refusable.asked]);
	count(history, of_flaw[flaw]);
	if (refusable.again && history->hand.failures > 0)
		count(history, REFUSED_AFTER_FAILED);
	require(history, answer == (flaw == FLAW_LENGTH ? REAM_LENGTH : REAM_RANGE), "a wrong argument is refused");
}

/* ---- for the step of a page */

/* The last step of a kind up to step i, or the first one of the plan. */
static unsigned last_of_kind(const struct hand *hand, unsigned i, unsigned kind)
{
	while (i > 0 && told_step(hand, i).kind != kind)
		i--;
	while (told_step(hand, i).kind != kind)
		i++;
	return i;
}

static uint64_t draw_past_end(struct history *history)
{
	static const uint64_t above[] = { 16, 256, (uint64_t)1 << 32, UINT64_MAX - 15 };
	const unsigned count = history->hand.count;
	uint64_t from;

	if (draw_below(&history->state, 2) == 0)
		return count;
	from = above[draw_below(&history->state, 4)];
	return from + draw_below(&history->state, count);
}

/* A step of the plan in hand that writes no page: a number past the plan's end, an erase or a zero step. */
static uint64_t draw_no_write(struct history *history, enum tally_row *row)
{
	const struct hand *hand = &history->hand;
	const unsigned step = (unsigned)draw_below(&history->state, hand->count);

	switch (draw_below(&history->state, hand->failures > 0 ? 3 : 2)) {
	case 0:
		*row = REFUSED_PAST_END;
		return draw_past_end(history);
	case 1:
		*row = REFUSED_ERASE;
		return last_of_kind(hand, step, REAM_ERASE);
	default:
		*row = REFUSED_ZERO;
		return last_of_kind(hand, step, REAM_ZERO);
	}
}

void refuse_step(struct history *history)
{
	enum tally_row row;
	const uint64_t step = draw_no_write(history, &row);
	const uint64_t answer = ask_page(history, step, NO_FLAW);

	note(history, "%s of step %" PRIu64 " refused, %u", asked_words[page_asked(&history->hand)], step,
	     ream_refusal(answer));
	count(history, row);
	require(history, answer == REAM_RANGE, "a step that writes no page is refused");
}

/* ---- for a failed step's number */

/* More failed steps than there are: one that cannot be planned for, and bytes behind it that must not count. */
struct overlong {
	uint8_t failed[MOST_FAILED + 4];
	size_t failures;
};

static struct overlong draw_overlong(struct history *history, const struct hand *hand, uint8_t number)
{
	struct overlong overlong;

	overlong.failures = hand->failures;
	memcpy(overlong.failed, hand->failed, hand->failures);
	overlong.failed[overlong.failures++] = number;
	for (uint64_t more = draw_below(&history->state, 4); more > 0; more--)
		overlong.failed[overlong.failures++] = (uint8_t)draw_below(&history->state, 12);
	return overlong;
}

/* A byte from `least` on: that one, the last, or any. */
static uint8_t draw_from(struct history *history, unsigned least)
{
	const unsigned any = least + (unsigned)draw_below(&history->state, 256 - least);
	const unsigned choices[] = { least, 255, any };

	return (uint8_t)choices[draw_below(&history->state, 3)];
}

/* With a plan in hand: a number past its end, or that of its zero step. */
static enum tally_row refuse_further(struct history *history, struct request *request, struct overlong *overlong)
{
	const struct hand *hand = &history->hand;
	const bool zero = hand->failures > 0 && draw_below(&history->state, 2) == 0;

	*overlong = draw_overlong(history, hand, zero ? 0 : draw_from(history, hand->count));
	*request = request_again(hand, draw_below(&history->state, 2) == 0 ? plan_asked(hand) : page_asked(hand));
	request->step = draw_below(&history->state, hand->count);
	return zero ? REFUSED_LIST_ZERO : REFUSED_LIST_PAST_END;
}

/* Without: any number for an empty plan, of a settled pair. */
static enum tally_row refuse_first(struct history *history, struct request *request, struct overlong *overlong,
				   const uint8_t *no_change)
{
	static const struct hand none;

	*overlong = draw_overlong(history, &none, draw_from(history, 0));
	*request = (struct request){ .asked = (enum asked)draw_below(&history->state, ASKS),
				     .region = &history->region, .wanted = no_change };
	return REFUSED_LIST_EMPTY;
}

void refuse_failed(struct history *history)
{
	static const enum tally_row of_asked[ASKS] = {
		[UPDATE_PLAN] = REFUSED_LIST_UPDATE_PLAN, [RECOVERY_PLAN] = REFUSED_LIST_RECOVERY_PLAN,
		[UPDATE_PAGE] = REFUSED_LIST_UPDATE_PAGE, [RECOVERY_PAGE] = REFUSED_LIST_RECOVERY_PAGE,
	};
	uint8_t no_change[MOST_BITMAP];
	struct overlong overlong;
	struct request request;
	enum tally_row row;
	uint64_t answer;

	memset(no_change, 0xFF, sizeof(no_change));
	if (history->hand.holding == NOTHING)
		row = refuse_first(history, &request, &overlong, no_change);
	else
		row = refuse_further(history, &request, &overlong);
	request.failed = overlong.failed;
	request.failures = overlong.failures;
	answer = driver_ask(&history->driver, &history->state, &request);
	note(history, "%s refused for a failed step's number, %u", asked_words[request.asked], ream_refusal(answer));
	count(history, row);
	count(history, of_asked[request.asked]);
	require(history, answer == (row == REFUSED_LIST_ZERO ? REAM_ZERO_FAILED : REAM_RANGE),
		"a failed step past its plan's end is refused with 2, and a zero step with 12");
}
