/* What the documents say of a region made to order. */
#include "outcomes.h"

#include <string.h>

#include "draw.h"
#include "reamsickle.h"

/* ---- outcomes */

static bool is_good(enum role role, enum kind kind)
{
	if (kind == MIRROR)
		return role == GOOD_MIRROR;
	return role == GOOD_PRIMARY || role == MARKED_PRIMARY;
}

/* What is to be expected of a cast. */
struct outcome {
	unsigned reading;	/* the refusal of reading and of planning an update, or REAM_OK */
	unsigned recovery;	/* the refusal of planning a recovery, or REAM_OK */
	unsigned block[KINDS];	/* where the good copy of each kind is, if there is one */
	struct plan plan;	/* recovery's, if not refused */
};

static void plan_add(struct plan *plan, enum kind kind, unsigned block)
{
	plan->kind[plan->copies] = kind;
	plan->block[plan->copies] = block;
	plan->copies++;
}

/* Both kinds good, one of each. */
static void outcome_of_both(struct outcome *outcome, struct scene *scene, const struct cast *cast)
{
	const uint8_t ahead = (uint8_t)(cast->version[PRIMARY] - cast->version[MIRROR]);
	const enum kind newer = ahead < 128 ? PRIMARY : MIRROR;
	const enum kind older = newer == PRIMARY ? MIRROR : PRIMARY;

	outcome->plan.version = cast->version[newer];
	memcpy(scene->made, scene->table[newer], (size_t)cast->chip.n / 4);
	if (ahead == 0 && cast->equal)
		return;
	outcome->reading = REAM_NOT_SETTLED;
	if (ahead == 128) {
		outcome->reading = outcome->recovery = REAM_OPPOSITE;
	} else if (ahead != 0) {
		plan_add(&outcome->plan, older, outcome->block[older]);
	} else {
		outcome->plan.version++;
		plan_add(&outcome->plan, PRIMARY, outcome->block[PRIMARY]);
		plan_add(&outcome->plan, MIRROR, outcome->block[MIRROR]);
		for (size_t i = 0; i < cast->chip.n / 4; i++)
			scene->made[i] = scene->table[PRIMARY][i] & scene->table[MIRROR][i];
	}
}

/* One kind alone good. The last block that will do is the highest. */
static void outcome_of_one(struct outcome *outcome, struct scene *scene, const struct cast *cast, enum kind good)
{
	const unsigned size = cast->chip.size;
	unsigned target = size;

	outcome->reading = REAM_NOT_SETTLED;
	for (unsigned block = 0; block < size; block++)
		if (block != outcome->block[good] && cast->role[block] != MARKED)
			target = block;
	if (target == size) {
		outcome->recovery = REAM_NO_TARGET;
		return;
	}
	outcome->plan.version = cast->version[good];
	plan_add(&outcome->plan, good == PRIMARY ? MIRROR : PRIMARY, target);
	memcpy(scene->made, scene->table[good], (size_t)cast->chip.n / 4);
}

static struct outcome outcome_of(struct scene *scene, const struct cast *cast)
{
	struct outcome outcome = { .reading = REAM_OK, .recovery = REAM_OK };
	unsigned good[KINDS] = { 0, 0 };

	for (unsigned block = 0; block < cast->chip.size; block++) {
		for (unsigned kind = 0; kind < KINDS; kind++) {
			if (is_good(cast->role[block], (enum kind)kind)) {
				good[kind]++;
				outcome.block[kind] = block;
			}
		}
	}
	if (good[PRIMARY] > 1 || good[MIRROR] > 1)
		outcome.reading = outcome.recovery = REAM_SEVERAL_COPIES;
	else if (good[PRIMARY] + good[MIRROR] == 0)
		outcome.reading = outcome.recovery = REAM_NO_COPY;
	else if (good[PRIMARY] + good[MIRROR] == 2)
		outcome_of_both(&outcome, scene, cast);
	else
		outcome_of_one(&outcome, scene, cast, good[PRIMARY] == 1 ? PRIMARY : MIRROR);
	return outcome;
}

/* Does an update change anything: is an entry good in `old` and not good in `wanted`? */
static bool update_changes(const uint8_t *old, const uint8_t *wanted, uint64_t n)
{
	for (uint64_t block = 0; block < n; block++)
		if (ream_entry_get(old, block) == REAM_ENTRY_GOOD && ream_entry_get(wanted, block) != REAM_ENTRY_GOOD)
			return true;
	return false;
}

/* The plan of an update of a settled pair, and in scene->made the table that it makes. */
static struct plan update_of(struct scene *scene, const struct cast *cast, const struct outcome *outcome)
{
	const uint8_t *old = scene->table[PRIMARY];
	struct plan plan = outcome->plan;

	memcpy(scene->made, old, (size_t)cast->chip.n / 4);
	if (!update_changes(old, scene->wanted, cast->chip.n))
		return plan;
	for (uint64_t block = 0; block < cast->chip.n; block++)
		if (ream_entry_get(old, block) == REAM_ENTRY_GOOD)
			ream_entry_set(scene->made, block, ream_entry_get(scene->wanted, block));
	plan.version++;
	plan_add(&plan, PRIMARY, outcome->block[PRIMARY]);
	plan_add(&plan, MIRROR, outcome->block[MIRROR]);
	return plan;
}

/* A refusal, or a plan beside the good copies of an outcome. */
static struct planned planned_beside(const struct outcome *outcome, unsigned refusal, struct plan plan)
{
	struct planned planned = { .refusal = refusal, .plan = plan };

	for (unsigned kind = 0; kind < KINDS; kind++)
		planned.stands[kind] = outcome->block[kind];
	for (unsigned copy = 0; copy < plan.copies; copy++) {
		planned.makes[plan.kind[copy]] = true;
		planned.stands[plan.kind[copy]] = plan.block[copy];
	}
	return planned;
}

static struct planned update_planned(struct scene *scene, const struct cast *cast, const struct outcome *outcome)
{
	if (outcome->reading != REAM_OK)
		return planned_beside(outcome, outcome->reading, outcome->plan);
	return planned_beside(outcome, REAM_OK, update_of(scene, cast, outcome));
}

struct planned planned_of(struct scene *scene, const struct cast *cast, enum entry_index index)
{
	const struct outcome outcome = outcome_of(scene, cast);

	if (index == UPDATE_PLAN)
		return update_planned(scene, cast, &outcome);
	return planned_beside(&outcome, outcome.recovery, outcome.plan);
}

/* ---- failed steps */

unsigned plan_steps(const struct plan *plan, unsigned pages)
{
	return (plan->zeroes ? 1 : 0) + plan->copies * (pages + 1);
}

/* The block of a copy of the plan failed: that copy goes elsewhere, and those before it are done. The last block
 * that will do is the highest. */
static void copy_fail(struct planned *planned, const struct cast *cast, unsigned copy)
{
	struct plan *plan = &planned->plan;
	const enum kind kind = plan->kind[copy];
	const unsigned other = planned->stands[kind == PRIMARY ? MIRROR : PRIMARY];
	unsigned target = cast->chip.size;

	plan->zeroes = true;
	plan->zeroed = plan->block[copy];
	planned->failed[plan->zeroed] = true;
	for (unsigned block = 0; block < cast->chip.size; block++)
		if (block != other && cast->role[block] != MARKED && !planned->failed[block])
			target = block;
	if (target == cast->chip.size) {
		planned->refusal = REAM_NO_TARGET;
		return;
	}
	plan->copies -= copy;
	memmove(plan->kind, plan->kind + copy, plan->copies * sizeof(plan->kind[0]));
	memmove(plan->block, plan->block + copy, plan->copies * sizeof(plan->block[0]));
	plan->block[0] = planned->stands[kind] = target;
}

void planned_fail(struct planned *planned, const struct cast *cast, uint8_t number)
{
	const unsigned pages = ream_table_pages(cast->chip.n);
	const unsigned zeros = planned->plan.zeroes ? 1 : 0;

	if (planned->refusal != REAM_OK)
		return;
	if (number >= plan_steps(&planned->plan, pages))
		planned->refusal = REAM_RANGE;
	else if (number < zeros)
		planned->refusal = REAM_ZERO_FAILED;
	else
		copy_fail(planned, cast, (number - zeros) / (pages + 1));
}

/* ---- expectations */

/* The last call read a settled pair. */
static void expect_table(struct test *test, struct chip chip, uint8_t version, const unsigned *block,
			 const uint8_t *table)
{
	const uint64_t first = chip.n - chip.size;

	expect(test, ream_refusal(test->answer) == REAM_OK, "a settled pair is read");
	expect(test, ream_version(test->answer) == version, "the version");
	expect(test, ream_primary_block(test->answer) == first + block[PRIMARY], "the primary's chip block");
	expect(test, ream_mirror_block(test->answer) == first + block[MIRROR], "the mirror's chip block");
	expect(test, test->answer >> 48 == 0, "nothing in the bits above");
	expect(test, memcmp(call_left(test, 2), table, (size_t)chip.n / 4) == 0, "the table");
}

static void expect_step(struct test *test, const uint8_t *bytes, unsigned kind, uint64_t block, unsigned page)
{
	const struct ream_step step = ream_step_get(bytes);

	expect(test, step.kind == kind, "a step's kind");
	expect(test, step.block == block, "a step's chip block");
	expect(test, step.page == page, "a step's page");
}

/* The last call gave this plan: zeros if there are any, then for each copy its block is erased and its pages are
 * written in rising order. Bytes past the last step are as they were lent. */
static void expect_plan(struct test *test, const struct region *region, const struct plan *plan)
{
	const unsigned buffer = entries[test->call.index].buffers - 1;
	const uint8_t *steps = call_left(test, buffer);
	const uint8_t *at = steps;

	expect(test, ream_refusal(test->answer) == REAM_OK, "a plan is given");
	expect(test, ream_version(test->answer) == plan->version, "the plan's version");
	expect(test, ream_step_count(test->answer) == plan_steps(plan, region->pages), "the number of steps");
	expect(test, test->answer >> 24 == 0, "nothing in the bits above");
	if (plan->zeroes) {
		expect_step(test, at, REAM_ZERO, region_first(region) + plan->zeroed, 0);
		at += REAM_STEP_SIZE;
	}
	for (unsigned copy = 0; copy < plan->copies; copy++) {
		const uint64_t block = region_first(region) + plan->block[copy];

		expect_step(test, at, REAM_ERASE, block, 0);
		at += REAM_STEP_SIZE;
		for (unsigned page = 0; page < region->pages; page++) {
			expect_step(test, at, REAM_WRITE, block, page);
			at += REAM_STEP_SIZE;
		}
	}
	expect(test, memcmp(at, test->call.bytes[buffer] + (at - steps), (size_t)(steps + 64 - at)) == 0,
	       "bytes past the plan's end keep what they held");
}

/* A step that is past the end of every plan: close to it, or one that a cut to fewer bits would take for a
 * write. */
static uint64_t draw_step_past(struct test *test)
{
	static const uint64_t past[] = {
		11, 12, 15, 16, 64, 256, 65536, (uint64_t)1 << 32, (uint64_t)1 << 63, UINT64_MAX - 9,
	};
	const uint64_t from = past[draw_below(&test->state, sizeof(past) / sizeof(past[0]))];

	return from + draw_below(&test->state, 10);
}

static void expect_no_page(struct test *test, const struct scene *scene, enum entry_index index)
{
	scene_call(test, index, scene);
	expect_answer(test, REAM_RANGE, "a step past the plan's end, of an erase or of zeros is refused");
}

static void expect_page(struct test *test, const struct scene *scene, enum entry_index index, const uint8_t *page)
{
	scene_call(test, index, scene);
	expect_answer(test, REAM_OK, "a page is given");
	expect(test, memcmp(call_left(test, entries[index].buffers - 1), page, PAGE_BYTES) == 0, "the page");
}

/* The pages of this plan, which makes scene->made, step by step. */
static void expect_plan_pages(struct test *test, struct scene *scene, enum entry_index index,
			      const struct plan *plan)
{
	uint8_t bytes[PAGE_BYTES];

	scene->step = 0;
	if (plan->zeroes) {
		expect_no_page(test, scene, index);
		scene->step++;
	}
	for (unsigned copy = 0; copy < plan->copies; copy++) {
		expect_no_page(test, scene, index);
		scene->step++;
		for (unsigned page = 0; page < scene->region.pages; page++) {
			region_lay_out(&scene->region, page, plan->kind[copy], plan->version, scene->made, bytes);
			expect_page(test, scene, index, bytes);
			scene->step++;
		}
	}
	expect_no_page(test, scene, index);
	scene->step = draw_step_past(test);
	expect_no_page(test, scene, index);
}

/* The refusal of a plan is that of its pages too, whatever the step. */
static void expect_pages_refused(struct test *test, struct scene *scene, enum entry_index index,
				 unsigned refusal)
{
	scene->step = draw_below(&test->state, 2) == 0 ? draw_below(&test->state, 12) : draw_step_past(test);
	scene_call(test, index, scene);
	expect_answer(test, refusal, "the refusal of a page");
}

void expect_planned(struct test *test, const struct scene *scene, enum entry_index index,
		    const struct planned *planned)
{
	scene_call(test, index, scene);
	if (planned->refusal == REAM_OK)
		expect_plan(test, &scene->region, &planned->plan);
	else
		expect_answer(test, planned->refusal, "the refusal of a plan");
}

void expect_pages(struct test *test, struct scene *scene, enum entry_index index, const struct planned *planned)
{
	if (planned->refusal == REAM_OK)
		expect_plan_pages(test, scene, index, &planned->plan);
	else
		expect_pages_refused(test, scene, index, planned->refusal);
}

/* A block that failed, once its zeros are written: how its first page then reads, and its data, may be anything. */
static void write_zeros(struct test *test, struct region *region, unsigned block)
{
	memset(region_oob(region, block, 0), 0, PAGE_OOB);
	draw_bytes(&test->state, region_data(region, block, 0), draw_below(&test->state, 2) * PAGE_DATA);
	*region_status(region, block, 0) = (uint8_t)draw_below(&test->state, 2);
}

void expect_carried_out(struct test *test, struct scene *scene, const struct cast *cast,
			const struct planned *planned)
{
	const struct plan nothing = { .version = planned->plan.version };

	for (unsigned block = 0; block < cast->chip.size; block++)
		if (planned->failed[block])
			write_zeros(test, &scene->region, block);
	for (unsigned kind = 0; kind < KINDS; kind++)
		if (planned->makes[kind])
			region_copy(&scene->region, planned->stands[kind], (enum kind)kind, planned->plan.version,
				    scene->made);
	scene->failed_len = 0;
	scene_call(test, TABLE_READ, scene);
	expect_table(test, cast->chip, planned->plan.version, planned->stands, scene->made);
	scene_call(test, RECOVERY_PLAN, scene);
	expect_plan(test, &scene->region, &nothing);
}

/* Gives what planning comes to that there is to carry out. */
static struct planned expect_outcome(struct test *test, struct scene *scene, const struct cast *cast)
{
	const struct outcome outcome = outcome_of(scene, cast);
	const struct planned recovery = planned_beside(&outcome, outcome.recovery, outcome.plan);
	struct planned update;

	scene_call(test, TABLE_READ, scene);
	if (outcome.reading == REAM_OK)
		expect_table(test, cast->chip, outcome.plan.version, outcome.block, scene->table[PRIMARY]);
	else
		expect_answer(test, outcome.reading, "the refusal of reading");

	expect_planned(test, scene, RECOVERY_PLAN, &recovery);
	expect_pages(test, scene, RECOVERY_PAGE, &recovery);

	update = update_planned(scene, cast, &outcome);
	expect_planned(test, scene, UPDATE_PLAN, &update);
	expect_pages(test, scene, UPDATE_PAGE, &update);
	return outcome.reading == REAM_OK ? update : recovery;
}

void expect_cast(struct test *test, struct scene *scene, const struct cast *cast)
{
	expect_outcome(test, scene, cast);
}

void expect_cast_carried_out(struct test *test, struct scene *scene, const struct cast *cast)
{
	const struct planned planned = expect_outcome(test, scene, cast);

	if (planned.refusal == REAM_OK)
		expect_carried_out(test, scene, cast, &planned);
}
