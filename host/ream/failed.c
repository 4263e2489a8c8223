/* The failed steps that a command is told of. */
#include "failed.h"

#include <stdio.h>

#include "list.h"
#include "tool.h"

/* ---- numbers */

/* Takes one number of a list. */
static bool take_item(const struct list *list, const struct item *item, struct failed *failed)
{
	if (item->first.outside || item->first.value > UINT8_MAX) {
		complain("%s %s: %.*s is out of range, expected steps from 0 to %d (%s)", list->option, list->text,
			 item->len, item->text, UINT8_MAX, REFUSED_RANGE);
		return false;
	}
	if (failed->count == MOST_FAILED) {
		complain("%s %s: is one of more than %d numbers; expected fewer, as no region has room for so many",
			 list->option, list->text, MOST_FAILED);
		return false;
	}
	failed->number[failed->count++] = (uint8_t)item->first.value;
	return true;
}

/* Takes a list, which may be empty. */
static bool take_list(const char *text, struct failed *failed)
{
	struct list list = list_begin("--failed", text, "steps' numbers with commas, as in 1,3", '\0');
	struct item item;

	if (*text == '\0')
		return true;
	while (list_next(&list, &item))
		if (!take_item(&list, &item, failed))
			return false;
	return !list.rest;
}

bool failed_take(const struct texts *lists, struct failed *failed)
{
	failed->count = 0;
	for (unsigned i = 0; i < lists->count; i++)
		if (!take_list(lists->text[i], failed))
			return false;
	return true;
}

/* ---- planning */

/* A step of the plan has failed. Sets down what it was, and plans anew. */
static unsigned plan_around(struct plan *plan, uint8_t number, struct failure *failure)
{
	failure->number = number;
	failure->count = plan->count;
	if (number < plan->count)
		failure->step = plan_step(plan, number);
	failure->refusal = plan_anew(plan, number);
	/* a plan that is made anew starts with a zero step and the erase at the target */
	if (failure->refusal == REAM_OK)
		failure->target = plan_step(plan, 1).block;
	return failure->refusal;
}

unsigned failed_plan(const struct failed *failed, struct plan *plan, struct failures *failures)
{
	unsigned refusal = REAM_OK;

	failures->count = 0;
	for (unsigned i = 0; i < failed->count && refusal == REAM_OK; i++)
		refusal = plan_around(plan, failed->number[i], &failures->failure[failures->count++]);
	return refusal;
}

/* ---- telling */

static bool is_of_plan(const struct failure *failure)
{
	return failure->number < failure->count;
}

static void print_failure(const struct failure *failure)
{
	const struct ream_step *step = &failure->step;

	printf("failed: step %u, ", failure->number);
	if (failure->count == 0)
		printf("which its plan does not have: it is empty");
	else if (!is_of_plan(failure))
		printf("which its plan does not have: its steps are 0 to %u", failure->count - 1);
	else if (step->kind == REAM_WRITE)
		printf("%s block %u page %u", plan_does(step), step->block, step->page);
	else
		printf("%s block %u", plan_does(step), step->block);
	if (failure->refusal == REAM_OK)
		printf("; its copy goes to block %u", failure->target);
	putchar('\n');
}

void failed_print(const struct failures *failures)
{
	for (unsigned i = 0; i < failures->count; i++)
		print_failure(&failures->failure[i]);
}

void failed_write(struct json *json, const struct failures *failures)
{
	json_list(json, "failed");
	for (unsigned i = 0; i < failures->count; i++) {
		const struct failure *failure = &failures->failure[i];

		json_object(json, NULL);
		json_number(json, "step", failure->number);
		if (is_of_plan(failure)) {
			json_text(json, "does", plan_does(&failure->step));
			json_number(json, "block", failure->step.block);
			if (failure->step.kind != REAM_ERASE)
				json_number(json, "page", failure->step.page);
		}
		if (failure->refusal == REAM_OK)
			json_number(json, "target", failure->target);
		json_end(json);
	}
	json_end(json);
}

/* ---- where it is refused */

/* There is no further plan. */
static void advise_to_recover(void)
{
	printf("  carry out no further step: dump the region again and recover it from there,\n"
	       "  without --failed, as after a power cut (ream recover); then take the chip out\n"
	       "  of service soon\n");
}

void failed_advise(const struct failures *failures)
{
	const struct failure *last;

	if (failures->count == 0)
		return;
	last = &failures->failure[failures->count - 1];
	switch (last->refusal) {
	case REAM_RANGE:
		printf("  a failed step's number counts in the plan as it stood when the step failed\n");
		break;
	case REAM_NO_TARGET:
		printf("  no block is left for its copy, as each is the other copy's, readable as bad or\n"
		       "  failed; block %u is not retired\n",
		       last->step.block);
		advise_to_recover();
		break;
	case REAM_ZERO_FAILED:
		printf("  block %u is as its zero step left it, retired or not\n", last->step.block);
		advise_to_recover();
		break;
	}
}
