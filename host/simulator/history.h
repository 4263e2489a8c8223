/*
 * A history: a settled region, and then events drawn one after the other, as documents 01 and 02 have them. Plans
 * are made and replaced, calls are refused, steps are done, steps fail and the plan is made again, and power is cut in
 * steps and between them. Plans and pages are the library's (driver.h), what is left of the chip is the rig's
 * (rig.h), and after each event the checker judges (checker.h).
 *
 * Where the seed is a multiple of BARE_IN there is no good copy at the start, and a first primary is made before all
 * that (bringup.h).
 *
 * A history follows from its seed alone, so it can be run again by itself.
 */
#ifndef HISTORY_H
#define HISTORY_H

#include <stdbool.h>
#include <stdint.h>

#include "checker.h"
#include "driver.h"
#include "region.h"
#include "tally.h"

enum {
	BARE_IN = 2,
	FEWEST_DRAWN = 19,	/* so many events are drawn once there is a copy, and fewer than .. */
	MORE_DRAWN = 80,	/* .. so many more */
	MOST_EVENTS = 200,	/* the room: for those, those before, and those of the recovery at last */
	EVENT_LEN = 240,	/* the room for the text of an event */
	MOST_FAILED = 16,	/* the room for a plan's failed steps, each of which costs a block of the region */
	NO_FATE = 100,		/* a step that no plan has */
};

/* What plan is in hand. One that has no step left is in hand no more. */
enum holding { NOTHING, UPDATE, RECOVERY };

struct hand {
	enum holding holding;
	struct region snapshot;			/* what it was made from */
	uint8_t wanted[MOST_BITMAP];		/* of an update */
	enum tally_row found;			/* of a recovery, its case */
	uint8_t failed[MOST_FAILED];		/* the failed steps' numbers, oldest first, .. */
	unsigned failures;			/* .. so many */
	bool first_failed;			/* one of them was of an update's first copy */
	uint8_t steps[64];
	unsigned count;				/* of its steps */
	unsigned next;				/* the step that comes next */
	unsigned fate;				/* at this step something else happens; or NO_FATE */
};

/* What happened since the last update was planned. */
struct since {
	bool update_failed;	/* a step of it failed */
	bool update_given_up;
	bool recovery_failed;	/* a step of a recovery failed */
};

struct history {
	uint64_t state;		/* of draw() */
	unsigned wear;		/* of a hundred events within a plan in so many its next step fails; .. */
	unsigned calm;		/* .. of a hundred others so many are its next step, done */
	bool first;		/* no pair has been settled yet */
	struct region region;	/* the chip */
	struct hand hand;
	struct since since;
	unsigned given_up;	/* the refusal for which the last plan was given up, until another is given; or 0 */
	struct driver driver;
	struct checker checker;
	struct tally *tally;
	bool logged;		/* a line is printed for each event */
	unsigned events;
	char event[MOST_EVENTS][EVENT_LEN];	/* what happened, in words; the start comes first */
	const char *broken;	/* a rule of the calls themselves; the driver and the checker have their own */
};

/* Runs a history and counts its events. Gives false if a rule was broken. */
bool history_run(struct history *history, uint64_t seed, struct tally *tally);

/* Prints the events of the last history, and the rule that was broken. */
void history_print(const struct history *history);

#endif
