/*
 * Plans whose steps fail, straight from document 02, "Blocks that fail under us". A failed step's number counts in
 * the plan as it stands after the failures before it.
 */
#include "plans.h"

/* "the highest block that is neither the other copy's, readable as bad nor failed"; the size if there is none. */
static size_t target_of(const struct region *region, size_t other, const bool *has_failed)
{
	for (size_t block = (size_t)region->size; block-- > 0;)
		if (block != other && !ref_readable_as_bad(region, block) && !has_failed[block])
			return block;
	return (size_t)region->size;
}

/* Are steps of a copy still to come after step `number`? */
static bool still_to_come(const struct plan *plan, size_t number, enum kind copy)
{
	for (size_t i = number + 1; i < plan->count; i++)
		if (plan->step[i].copy == copy)
			return true;
	return false;
}

/* "The plan then becomes: write zeros to all 64 OOB bytes of that block's first page, then that copy's erase and all
 * its pages at the highest block .., then the other copy's steps if still to come. It is numbered from 0 and stays
 * the same update or recovery": its table and its version are kept. */
static void become(struct plan *plan, const struct region *region, size_t number, size_t target)
{
	const struct step failed = plan->step[number];
	const enum kind other = failed.copy == PRIMARY ? MIRROR : PRIMARY;
	const bool other_follows = still_to_come(plan, number, other);

	plan->step[0] = (struct step){ ZERO, failed.block, 0, failed.copy };
	plan->count = 1;
	ref_plan_copy(plan, region, failed.copy, target);
	if (other_follows)
		ref_plan_copy(plan, region, other, plan->at[other]);
}

/* One failed step: "A failed zero write is new refusal 12. No target is refusal 11, .. 2 for a failed step past its
 * plan's end". */
static enum refusal step_failed(const struct region *region, size_t number, bool *has_failed, struct plan *plan)
{
	size_t target;

	if (number >= plan->count)
		return OUT_OF_RANGE;
	if (plan->step[number].kind == ZERO)
		return ZERO_FAILED;
	has_failed[plan->step[number].block] = true;
	target = target_of(region, plan->at[plan->step[number].copy == PRIMARY ? MIRROR : PRIMARY], has_failed);
	if (target == region->size)
		return NO_TARGET;
	become(plan, region, number, target);
	return ANSWERED;
}

/* "the failed steps' numbers, a byte each, oldest first"; "the first one met" is the refusal. */
enum refusal ref_plan_again(const struct region *region, const uint8_t *failed, size_t failed_len,
			    struct plan *plan)
{
	bool has_failed[MOST_REGION] = { false };
	enum refusal refusal = ANSWERED;

	for (size_t i = 0; i < failed_len && refusal == ANSWERED; i++)
		refusal = step_failed(region, failed[i], has_failed, plan);
	return refusal;
}
