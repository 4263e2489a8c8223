/* A history: events drawn one after the other. */
#include "history.h"

#include <stdio.h>

#include "bringup.h"
#include "draw.h"
#include "events.h"
#include "hand.h"
#include "log.h"
#include "reamsickle.h"
#include "starts.h"

/* ---- drawing */

/* An event and how likely it is among the others. */
struct likely {
	unsigned weight;
	void (*happen)(struct history *);
};

static void draw_event(struct history *history, const struct likely *likely)
{
	unsigned sum = 0;
	uint64_t place;

	for (unsigned i = 0; likely[i].weight != 0; i++)
		sum += likely[i].weight;
	place = draw_below(&history->state, sum);
	while (place >= likely->weight) {
		place -= likely->weight;
		likely++;
	}
	likely->happen(history);
}

/* The events within a plan, beside its next step, done or failed; and those with no plan in hand, on a settled pair
 * and on another. */
static const struct likely within[] = {
	{ 12, cut_in_step }, { 3, cut_between_steps }, { 2, plan_recovery }, { 2, plan_update },
	{ 2, refuse_arguments }, { 2, refuse_step }, { 2, refuse_failed }, { 0, NULL },
};
static const struct likely without_settled[] = {
	{ 14, plan_update }, { 3, plan_recovery }, { 1, refuse_arguments }, { 1, refuse_failed },
	{ 1, step_none_left }, { 1, cut_none_left }, { 0, NULL },
};
static const struct likely without_unsettled[] = {
	{ 2, plan_update }, { 12, plan_recovery }, { 1, refuse_arguments }, { 1, step_none_left },
	{ 1, cut_none_left }, { 0, NULL },
};

/* Does the next step fail? A zero step does less often, as that ends the plan. */
static bool draw_failure(struct history *history)
{
	const struct hand *hand = &history->hand;
	const bool zero = told_step(hand, hand->next).kind == REAM_ZERO;

	return draw_below(&history->state, 100) < (zero ? history->wear / 4 : history->wear);
}

/* The next event within a plan. */
static void next_within(struct history *history)
{
	struct hand *hand = &history->hand;

	if (hand->fate == hand->next) {
		hand->fate = NO_FATE;
		if (history->wear > 0 && draw_below(&history->state, 3) == 0)
			fail_step(history);
		else
			draw_event(history, within);
	} else if (hand->fate != NO_FATE) {
		do_step(history);
	} else if (draw_failure(history)) {
		fail_step(history);
	} else if (draw_below(&history->state, 100) < history->calm) {
		do_step(history);
	} else {
		draw_event(history, within);
	}
}

static void next_event(struct history *history)
{
	if (history->hand.holding != NOTHING)
		next_within(history);
	else
		draw_event(history, checker_settled(&history->region) ? without_settled : without_unsettled);
	checker_event(&history->checker, &history->region);
}

/* ---- the start */

/* Gives false where the history ends before there is a pair. */
static bool begin(struct history *history, uint64_t seed, struct tally *tally)
{
	static const unsigned wears[] = { 0, 3, 12, 40 }, calms[] = { 60, 85, 97 };

	history->state = seed;
	history->tally = tally;
	history->events = 0;
	history->hand.holding = NOTHING;
	history->since = (struct since){ false, false, false };
	history->given_up = 0;
	history->broken = history->driver.broken = NULL;
	history->driver.turn = 0;
	history->first = seed % BARE_IN == 0;
	if (!history->first)
		start_with_pair(history);
	else if (!bring_up(history))
		return false;
	history->wear = wears[draw_below(&history->state, 4)];
	history->calm = calms[draw_below(&history->state, 3)];
	return true;
}

/* ---- a whole history */

/* Events, and at last a recovery, done to its end. */
static void go_on(struct history *history)
{
	const unsigned events = history->events + FEWEST_DRAWN + (unsigned)draw_below(&history->state, MORE_DRAWN);

	while (history->events < events && !broken(history))
		next_event(history);
	if (!broken(history))
		plan_recovery(history);
	while (!broken(history) && history->hand.holding != NOTHING) {
		do_step(history);
		checker_event(&history->checker, &history->region);
	}
}

bool history_run(struct history *history, uint64_t seed, struct tally *tally)
{
	if (begin(history, seed, tally))
		go_on(history);
	if (history->logged)
		log_line(history, "end");
	tally->histories++;
	tally->events += history->events - 1;
	return !broken(history);
}

void history_print(const struct history *history)
{
	printf("  %s\n", history->event[0]);
	for (unsigned i = 1; i < history->events; i++)
		printf("  %u: %s\n", i, history->event[i]);
	printf("  broken: %s\n", broken(history) ? broken(history) : "nothing");
}
