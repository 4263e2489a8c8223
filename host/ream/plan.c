/* A plan of the library. */
#include "plan.h"

#include <stdlib.h>
#include <string.h>

#include "tool.h"

/* ---- planning */

/* Has the library plan, from what the plan is made from. */
static unsigned ask(struct plan *plan)
{
	const struct region *from = &plan->snapshot;
	const size_t image_len = region_image_len(from), status_len = region_status_len(from);
	uint8_t *steps = plan->steps + REAM_STEP_SIZE * plan->before;
	uint64_t answer;

	if (plan->updates)
		answer = ream_update_plan(from->n, from->size, from->image, image_len, from->status, status_len,
					  plan->wanted, ream_bitmap_size(from->n), plan->failed, plan->failures,
					  steps, REAM_STEPS_SIZE);
	else
		answer = ream_recovery_plan(from->n, from->size, from->image, image_len, from->status,
					    status_len, plan->failed, plan->failures, steps, REAM_STEPS_SIZE);
	plan->version = ream_ok(answer) ? ream_version(answer) : 0;
	plan->count = ream_ok(answer) ? plan->before + ream_step_count(answer) : 0;
	return ream_refusal(answer);
}

/* Begins a plan from a snapshot: no step has failed, none stands before it, and none stays undone. */
static void begin(struct plan *plan, const struct region *region, bool updates)
{
	plan->snapshot = *region;
	plan->updates = updates;
	plan->failures = 0;
	plan->before = 0;
	plan->undone = 0;
}

unsigned plan_make(struct plan *plan, const struct region *region, const uint8_t *wanted)
{
	begin(plan, region, wanted != NULL);
	if (wanted)
		memcpy(plan->wanted, wanted, ream_bitmap_size(region->n));
	return ask(plan);
}

/* Every failure that is planned around has a block of its own, so there is room for one more that is refused. */
unsigned plan_anew(struct plan *plan, uint8_t number)
{
	if (plan->failures == MOST_FAILURES) {
		complain("more failed steps are planned around than the region has blocks");
		abort();
	}
	plan->failed[plan->failures++] = number;
	return ask(plan);
}

/* ---- a first pair */

/* Adds a step on a block of the region to those before the library's plan. */
static void add_before(struct plan *plan, enum ream_step_kind kind, unsigned block, unsigned page)
{
	const unsigned chip_block = (unsigned)region_first(&plan->snapshot) + block;
	uint8_t *step = plan->steps + REAM_STEP_SIZE * plan->before++;

	step[0] = (uint8_t)kind;
	step[1] = (uint8_t)(chip_block >> 8);
	step[2] = (uint8_t)chip_block;
	step[3] = (uint8_t)page;
}

/* Writes a page of the primary into the snapshot. No number of it is outside its range, so it is not refused. */
static void write_primary(struct region *region, const struct first *first, unsigned page)
{
	const uint64_t answer = ream_table_page(region->n, region->size, first->bitmap, ream_bitmap_size(region->n),
						REAM_PRIMARY, first->version, page,
						region_data(region, first->block, page), PAGE_BYTES);

	if (ream_ok(answer))
		return;
	complain("page %u of the primary is refused: %s", page, ream_refusal_text(ream_refusal(answer)));
	abort();
}

unsigned plan_first(struct plan *plan, const struct region *region, const struct first *first)
{
	begin(plan, region, false);
	region_erase(&plan->snapshot, first->block);
	add_before(plan, REAM_ERASE, first->block, 0);
	for (unsigned page = 0; page < region->pages; page++) {
		write_primary(&plan->snapshot, first, page);
		add_before(plan, REAM_WRITE, first->block, page);
	}
	return ask(plan);
}

/* ---- steps */

struct ream_step plan_step(const struct plan *plan, unsigned i)
{
	return ream_step_get(plan->steps + REAM_STEP_SIZE * i);
}

const char *plan_does(const struct ream_step *step)
{
	static const char *const words[] = {
		[REAM_ERASE] = "erase", [REAM_WRITE] = "write", [REAM_ZERO] = "zero",
	};

	return words[step->kind];
}

unsigned plan_block(const struct plan *plan, const struct ream_step *step)
{
	return (unsigned)(step->block - region_first(&plan->snapshot));
}

/* Asks for the page of step i of the library's plan. The library proves that it is not refused, so this does not come
 * back with a refusal. */
static void ask_page(const struct plan *plan, unsigned i, uint8_t page[PAGE_BYTES])
{
	const struct region *from = &plan->snapshot;
	const size_t image_len = region_image_len(from), status_len = region_status_len(from);
	uint64_t answer;

	if (plan->updates)
		answer = ream_update_page(from->n, from->size, from->image, image_len, from->status, status_len,
					  plan->wanted, ream_bitmap_size(from->n), plan->failed, plan->failures,
					  i, page, PAGE_BYTES);
	else
		answer = ream_recovery_page(from->n, from->size, from->image, image_len, from->status,
					    status_len, plan->failed, plan->failures, i, page, PAGE_BYTES);
	if (ream_ok(answer))
		return;
	complain("the page of step %u is refused: %s", i, ream_refusal_text(ream_refusal(answer)));
	abort();
}

void plan_page(const struct plan *plan, unsigned i, uint8_t page[PAGE_BYTES])
{
	const struct ream_step step = plan_step(plan, i);

	if (i >= plan->before)
		ask_page(plan, i - plan->before, page);
	else
		memcpy(page, region_page(&plan->snapshot, plan_block(plan, &step), step.page), PAGE_BYTES);
}

/* ---- carrying out */

bool plan_go_through(const struct plan *plan, bool (*step)(const struct plan *plan, unsigned i, void *to), void *to)
{
	struct plan then = *plan;

	for (then.failures = 0; then.failures <= plan->failures; then.failures++) {
		const bool failed = then.failures < plan->failures;

		ask(&then);
		for (unsigned i = 0; i < (failed ? plan->failed[then.failures] : then.count - plan->undone); i++)
			if (!step(&then, i, to))
				return false;
	}
	return true;
}

/* Does a step on a region. For plan_go_through(). */
static bool do_step(const struct plan *plan, unsigned i, void *to)
{
	struct region *region = to;
	const struct ream_step step = plan_step(plan, i);
	const unsigned block = plan_block(plan, &step);

	if (step.kind == REAM_ERASE) {
		region_erase(region, block);
	} else if (step.kind == REAM_ZERO) {
		memset(region_oob(region, block, 0), 0, PAGE_OOB);
	} else {
		plan_page(plan, i, region_data(region, block, step.page));
		*region_status(region, block, step.page) = REAM_READ_WELL;
	}
	return true;
}

void plan_carry_out(const struct plan *plan, struct region *region)
{
	plan_go_through(plan, do_step, region);
}
