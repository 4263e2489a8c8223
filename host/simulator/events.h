/* The events of a history. Each notes and counts itself; the checker judges afterwards. */
#ifndef EVENTS_H
#define EVENTS_H

#include "history.h"
#include "rig.h"

/* A plan is asked for. If it is given, it is taken in hand. (plans.c) */
void plan_update(struct history *history);
void plan_recovery(struct history *history);

/* What is wanted of an update: drawn, and told as a row of the tally. */
enum tally_row draw_wanted(struct history *history, uint8_t *wanted);

/* A step of the plan in hand has failed: it is asked for again with that step's number, and goes on at step 0, or is
 * given up if that is refused. */
void plan_again(struct history *history);

/* A call is refused and changes nothing: for its arguments, for a step of the plan in hand that writes no page, or
 * for the number of a failed step. (refused.c) */
void refuse_arguments(struct history *history);
void refuse_step(struct history *history);
void refuse_failed(struct history *history);

/* The next step of the plan in hand is done, fails, or is cut; or power is cut before it. (steps.c) */
void do_step(struct history *history);
void fail_step(struct history *history);
void cut_in_step(struct history *history);
void cut_between_steps(struct history *history);

/* A step that does not run to its end: how that is called, and the rows of what it leaves. */
struct broken_off {
	const char *words;
	enum tally_row erase[LEFTS], write[LEFTS], zero[LEFTS];
	enum tally_row nearly_zeroed;		/* an erase or a write: the first page unreadable, with 63 zeros */
	enum tally_row unreadable_zeroed;	/* a zero write: the page unreadable, with 64 zeros */
};

/* Such a step, an erase, a write or a zero write. What it leaves is counted, and told in words to follow those of the
 * step. */
void leave_erase(struct history *history, const struct broken_off *how, unsigned block, char words[EVENT_LEN]);
const char *leave_write(struct history *history, const struct broken_off *how, unsigned block, unsigned page,
			const uint8_t *image);
const char *leave_zero(struct history *history, const struct broken_off *how, unsigned block);

/* A step or a cut with no step left changes no page. */
void step_none_left(struct history *history);
void cut_none_left(struct history *history);

#endif
