/*
 * The failed steps that a command is told of: their numbers, oldest first, each in the plan as it stood when that step
 * failed; and what each of them was and comes to.
 */
#ifndef FAILED_H
#define FAILED_H

#include <stdbool.h>
#include <stdint.h>

#include "args.h"
#include "json.h"
#include "plan.h"

enum { MOST_FAILED = 256 };

/* The numbers. */
struct failed {
	unsigned count;
	uint8_t number[MOST_FAILED];
};

/* What a failed step was, and comes to. */
struct failure {
	unsigned number;
	unsigned count;		/* of the steps of its plan */
	struct ream_step step;	/* where its plan has one of that number */
	unsigned refusal;	/* of planning anew */
	unsigned target;	/* where it is not refused, the chip block that the step's copy goes to */
};

/* Those that were looked at: all of them, or up to the first that is refused. */
struct failures {
	unsigned count;
	struct failure failure[MOST_FAILURES];
};

/* Takes the numbers in lists. False, with a complaint, where one is wrong. */
bool failed_take(const struct texts *lists, struct failed *failed);

/* Plans anew for each failed step. Gives the refusal, or REAM_OK. */
unsigned failed_plan(const struct failed *failed, struct plan *plan, struct failures *failures);

/* Tells what they were. */
void failed_print(const struct failures *failures);
void failed_write(struct json *json, const struct failures *failures);

/* Tells what to do where the last of them is refused. */
void failed_advise(const struct failures *failures);

#endif
