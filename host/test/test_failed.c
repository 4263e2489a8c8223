/*
 * Steps that fail: what becomes of the plans of updates and recoveries, the pages that they then write, and which
 * lists of failed steps are refused. And blocks that are readable as bad by 64 zeros.
 */
#include "tests.h"

#include <string.h>

#include "draw.h"
#include "outcomes.h"
#include "reamsickle.h"
#include "region.h"
#include "scenes.h"

/* The entry that gives the pages of a plan. */
static enum entry_index page_entry(enum entry_index plan_index)
{
	return plan_index == UPDATE_PLAN ? UPDATE_PAGE : RECOVERY_PAGE;
}

/* ---- plans by number */

struct example {
	uint8_t failed[4];
	size_t failed_len;
	uint64_t answer;	/* a refusal, or the number of steps in bits 16 and up */
	const char *steps;
};

static void expect_examples(struct test *test, struct scene *scene, enum entry_index index, uint8_t version,
			    const struct example *examples, unsigned count)
{
	for (unsigned i = 0; i < count; i++) {
		const struct example *example = &examples[i];
		const unsigned steps = (unsigned)(example->answer >> 16);

		scene_fail(scene, example->failed, example->failed_len);
		scene_call(test, index, scene);
		expect_answer(test, steps == 0 ? example->answer : example->answer | (uint64_t)version << 8,
			      "the answer to a list of failed steps");
		expect(test, memcmp(call_left(test, entries[index].buffers - 1), example->steps,
				    (size_t)REAM_STEP_SIZE * steps) == 0, "the steps after failed ones");
	}
}

#define STEPS(n) (uint64_t)(n) << 16

/* Eight blocks, the last four the region: 4 and 5 blank, the mirror in 6, the primary in 7. */
static void try_update_examples(struct test *test, struct scene *scene)
{
	static const char primary_to_5[] = "\2\0\7\0" "\0\0\5\0" "\1\0\5\0" "\0\0\6\0" "\1\0\6\0";
	static const char primary_to_4[] = "\2\0\5\0" "\0\0\4\0" "\1\0\4\0" "\0\0\6\0" "\1\0\6\0";
	static const char mirror_to_5[] = "\2\0\6\0" "\0\0\5\0" "\1\0\5\0";
	static const char mirror_to_4[] = "\2\0\6\0" "\0\0\4\0" "\1\0\4\0";
	static const char mirror_on_to_4[] = "\2\0\5\0" "\0\0\4\0" "\1\0\4\0";
	static const struct example examples[] = {
		{ { 0 }, 0, STEPS(4), "\0\0\7\0" "\1\0\7\0" "\0\0\6\0" "\1\0\6\0" },
		{ { 0 }, 1, STEPS(5), primary_to_5 },
		{ { 1 }, 1, STEPS(5), primary_to_5 },
		{ { 0, 1 }, 2, STEPS(5), primary_to_4 },
		{ { 1, 2 }, 2, STEPS(5), primary_to_4 },
		{ { 2 }, 1, STEPS(3), mirror_to_5 },
		{ { 3 }, 1, STEPS(3), mirror_to_5 },
		{ { 1, 3 }, 2, STEPS(3), mirror_to_4 },
		{ { 0, 4 }, 2, STEPS(3), mirror_to_4 },
		{ { 2, 1 }, 2, STEPS(3), mirror_on_to_4 },
		{ { 3, 2 }, 2, STEPS(3), mirror_on_to_4 },
		{ { 4 }, 1, REAM_RANGE, "" },
		{ { 255 }, 1, REAM_RANGE, "" },
		{ { 0, 5 }, 2, REAM_RANGE, "" },
		{ { 2, 3 }, 2, REAM_RANGE, "" },
		{ { 0, 0 }, 2, REAM_ZERO_FAILED, "" },
		{ { 3, 0 }, 2, REAM_ZERO_FAILED, "" },
		{ { 0, 1, 0 }, 3, REAM_ZERO_FAILED, "" },
		{ { 0, 1, 1 }, 3, REAM_NO_TARGET, "" },
		{ { 0, 1, 4 }, 3, REAM_NO_TARGET, "" },
		{ { 0, 3, 2 }, 3, REAM_NO_TARGET, "" },
		{ { 2, 1, 1 }, 3, REAM_NO_TARGET, "" },
		{ { 255, 0, 0 }, 3, REAM_RANGE, "" },
		{ { 0, 0, 255 }, 3, REAM_ZERO_FAILED, "" },
		{ { 0, 5, 0 }, 3, REAM_RANGE, "" },
		{ { 0, 1, 1, 255 }, 4, REAM_NO_TARGET, "" },
	};
	const struct cast cast = cast_settled((struct chip){ 8, 4 }, 3, 2, 5);

	test->trying = "failed steps of an update by number";
	scene_build_changing(test, scene, &cast);
	expect_examples(test, scene, UPDATE_PLAN, 6, examples, sizeof(examples) / sizeof(examples[0]));
}

/* The same with a primary alone, in 5: the mirror goes to 7. */
static void try_recovery_examples(struct test *test, struct scene *scene)
{
	static const struct example examples[] = {
		{ { 0 }, 0, STEPS(2), "\0\0\7\0" "\1\0\7\0" },
		{ { 0 }, 1, STEPS(3), "\2\0\7\0" "\0\0\6\0" "\1\0\6\0" },
		{ { 1 }, 1, STEPS(3), "\2\0\7\0" "\0\0\6\0" "\1\0\6\0" },
		{ { 1, 1 }, 2, STEPS(3), "\2\0\6\0" "\0\0\4\0" "\1\0\4\0" },
		{ { 0, 2 }, 2, STEPS(3), "\2\0\6\0" "\0\0\4\0" "\1\0\4\0" },
		{ { 2 }, 1, REAM_RANGE, "" },
		{ { 1, 3 }, 2, REAM_RANGE, "" },
		{ { 1, 0 }, 2, REAM_ZERO_FAILED, "" },
		{ { 1, 1, 0 }, 3, REAM_ZERO_FAILED, "" },
		{ { 1, 1, 1 }, 3, REAM_NO_TARGET, "" },
		{ { 1, 1, 2, 9 }, 4, REAM_NO_TARGET, "" },
	};
	struct cast cast = cast_settled((struct chip){ 8, 4 }, 1, 2, 5);

	test->trying = "failed steps of a recovery by number";
	cast.role[2] = BLANK;
	scene_build(test, scene, &cast);
	expect_examples(test, scene, RECOVERY_PLAN, 5, examples, sizeof(examples) / sizeof(examples[0]));
}

#undef STEPS

/* ---- lists of failed steps */

/* What there is to plan: an update, and each case of a recovery. */
enum planning { UPDATED, PRIMARY_ALONE, MIRROR_ALONE, PRIMARY_NEWER, MIRROR_NEWER, MERGED, PLANNINGS };

static enum entry_index plan_entry(enum planning planning)
{
	return planning == UPDATED ? UPDATE_PLAN : RECOVERY_PLAN;
}

/* A cast for that in pair i of blocks. Bit b of `bad` says that block b is readable as bad, if it holds no good copy;
 * other blocks are neither. */
static struct cast cast_planning(struct test *test, struct chip chip, enum planning planning, unsigned i,
				 unsigned bad)
{
	struct cast cast = cast_placed(chip, i, (uint8_t)draw(&test->state));

	if (planning == PRIMARY_NEWER)
		cast.version[PRIMARY] += (uint8_t)(1 + draw_below(&test->state, 127));
	if (planning == MIRROR_NEWER)
		cast.version[MIRROR] += (uint8_t)(1 + draw_below(&test->state, 127));
	cast.equal = planning == UPDATED || (planning != MERGED && draw_below(&test->state, 2) == 0);
	for (unsigned block = 0; block < chip.size; block++) {
		const enum role role = cast.role[block];

		if (role == BLANK || (role == GOOD_MIRROR && planning == PRIMARY_ALONE) ||
		    (role == GOOD_PRIMARY && planning == MIRROR_ALONE))
			cast.role[block] = bad >> block & 1 ? MARKED : drawn_role(test, BLANK);
		else if (role == GOOD_PRIMARY && draw_below(&test->state, 2) == 0)
			cast.role[block] = MARKED_PRIMARY;
	}
	cast_draw_spoilt(test, &cast);
	return cast;
}

/* The list with each number worth trying at its end. What follows a number that is refused does not count. */
static void try_numbers_next(struct test *test, struct scene *scene, const struct cast *cast, enum entry_index index,
			     const struct planned *planned)
{
	static const uint8_t far[] = { 15, 16, 127, 128, 254, 255 };
	const unsigned near = plan_steps(&planned->plan, scene->region.pages) + 2;
	const size_t len = scene->failed_len;

	for (unsigned i = 0; i < near + sizeof(far); i++) {
		const uint8_t number = i < near ? (uint8_t)i : far[i - near];
		struct planned next = *planned;

		planned_fail(&next, cast, number);
		scene_fail_too(scene, number);
		if (next.refusal != REAM_OK)
			for (uint64_t more = draw_below(&test->state, 4); more > 0; more--)
				scene_fail_too(scene, (uint8_t)draw_below(&test->state, 13));
		expect_planned(test, scene, index, &next);
		scene->failed_len = len;
	}
}

/* Carries the plan out, and puts the region back. */
static void try_carried_out(struct test *test, struct scene *scene, const struct cast *cast,
			    const struct planned *planned)
{
	const struct region region = scene->region;
	const size_t len = scene->failed_len;

	expect_carried_out(test, scene, cast, planned);
	scene->region = region;
	scene->failed_len = len;
}

/* Expects what the scene's list of failed steps comes to; then a step of each copy fails besides, until no block is
 * left. */
static void try_failing(struct test *test, struct scene *scene, const struct cast *cast, enum entry_index index,
			const struct planned *planned)
{
	const unsigned pages = scene->region.pages;
	const size_t len = scene->failed_len;

	expect_planned(test, scene, index, planned);
	expect_pages(test, scene, page_entry(index), planned);
	if (planned->refusal != REAM_OK)
		return;
	expect(test, len <= cast->chip.size - 2 && len < REAM_FAILED_MAX, "a longer list is refused");
	try_numbers_next(test, scene, cast, index, planned);
	try_carried_out(test, scene, cast, planned);
	for (unsigned copy = 0; copy < planned->plan.copies; copy++) {
		const unsigned first = (planned->plan.zeroes ? 1 : 0) + copy * (pages + 1);
		const uint8_t number = (uint8_t)(first + draw_below(&test->state, pages + 1));
		struct planned next = *planned;

		planned_fail(&next, cast, number);
		scene_fail_too(scene, number);
		try_failing(test, scene, cast, index, &next);
		scene->failed_len = len;
	}
}

static void try_planning(struct test *test, struct scene *scene, struct chip chip, enum planning planning, unsigned i,
			 unsigned bad)
{
	const struct cast cast = cast_planning(test, chip, planning, i, bad);
	struct planned planned;

	scene_build_changing(test, scene, &cast);
	if (draw_below(&test->state, 2) == 0)
		scene_stir(test, scene);
	planned = planned_of(scene, &cast, plan_entry(planning));
	try_failing(test, scene, &cast, plan_entry(planning), &planned);
}

/* Every two blocks for the copies, with some of the others bad; and every set of bad blocks. */
static void try_lists(struct test *test, struct scene *scene)
{
	for (unsigned shape = 0; shape < SHAPES; shape++) {
		const struct chip chip = shapes[shape];
		const unsigned sets = 1u << chip.size;

		test->trying = "failed steps, copies in every two blocks";
		for (unsigned i = 0; i < placements(chip); i++) {
			const enum planning recovery = (enum planning)(1 + i % (PLANNINGS - 1));
			const uint64_t any = draw(&test->state);
			const unsigned some = (unsigned)(any & draw(&test->state)) % sets;

			if (left_out(test))
				continue;
			try_planning(test, scene, chip, UPDATED, i, i % 3 == 0 ? 0 : some);
			try_planning(test, scene, chip, recovery, i, i % 3 == 1 ? 0 : some);
		}

		test->trying = "failed steps, every set of bad blocks";
		for (unsigned bad = 0; bad < sets; bad++)
			if (!left_out(test))
				try_planning(test, scene, chip, (enum planning)(bad % PLANNINGS),
					     (unsigned)draw_below(&test->state, placements(chip)), bad);
	}
}

/* ---- every number, and every length */

/* All numbers at the end of the scene's list: those of the plan's copies are taken as long as there is a target. */
static void try_all_numbers_next(struct test *test, struct scene *scene, const struct cast *cast,
				 enum entry_index index, const struct planned *planned)
{
	const size_t len = scene->failed_len;

	for (unsigned number = 0; number < 256; number++) {
		struct planned next = *planned;

		planned_fail(&next, cast, (uint8_t)number);
		scene_fail_too(scene, (uint8_t)number);
		expect_planned(test, scene, index, &next);
		if (next.refusal != REAM_OK)
			expect_pages(test, scene, page_entry(index), &next);
		scene->failed_len = len;
	}
}

/* All numbers at each place of a list: the first copy of a plan fails again and again, wherever it goes. With no bad
 * block about, size - 2 of its blocks can fail. */
static void try_all_numbers(struct test *test, struct scene *scene)
{
	test->trying = "every number at each place of a list";
	for (unsigned i = 0; i < SHAPES * PLANNINGS; i++) {
		const struct chip chip = shapes[i % SHAPES];
		const enum planning planning = (enum planning)(i / SHAPES);
		const enum entry_index index = plan_entry(planning);
		const unsigned pair = (unsigned)draw_below(&test->state, placements(chip));
		const struct cast cast = cast_planning(test, chip, planning, pair, 0);
		struct planned planned;

		if (left_out(test))
			continue;
		scene_build_changing(test, scene, &cast);
		planned = planned_of(scene, &cast, index);
		while (planned.refusal == REAM_OK) {
			const uint8_t number = (uint8_t)(1 + draw_below(&test->state, scene->region.pages));

			try_all_numbers_next(test, scene, &cast, index, &planned);
			planned_fail(&planned, &cast, number);
			scene_fail_too(scene, number);
		}
		expect(test, planned.refusal == REAM_NO_TARGET && scene->failed_len == chip.size - 1,
		       "a list of size - 1 finds no target");
	}
}

/* Calls an entry with a list of so many bytes, which begins as the scene's and goes on with drawn ones. */
static void call_with_length(struct test *test, const struct scene *scene, enum entry_index index, size_t len)
{
	const unsigned buffer = entries[index].buffers - 2;
	uint8_t *failed = test->call.bytes[buffer];

	scene_set_up(test, index, scene);
	if (len > scene->failed_len)
		draw_bytes(&test->state, failed + scene->failed_len, len - scene->failed_len);
	test->call.len[buffer] = len;
	call_compare(test);
}

/* A list that is refused within its first numbers, told with every length: shorter it is another list, longer it is
 * refused as before. */
static void try_list_lengths(struct test *test, struct scene *scene, enum planning planning, uint8_t last)
{
	static const size_t far[] = { 1000, 4096, 65535, 65536, 65537, LENT_ROOM - 1, LENT_ROOM };
	const enum entry_index index = plan_entry(planning);
	const struct chip chip = shapes[draw_below(&test->state, SHAPES)];
	const struct cast cast = cast_planning(test, chip, planning, 0, 0);
	struct planned planned;

	scene_build_changing(test, scene, &cast);
	planned = planned_of(scene, &cast, index);
	expect_planned(test, scene, index, &planned);
	while (planned.refusal == REAM_OK) {
		const bool ends = scene->failed_len == chip.size - 3;

		scene_fail_too(scene, ends ? last : 1);
		planned_fail(&planned, &cast, ends ? last : 1);
		expect_planned(test, scene, index, &planned);
	}
	for (size_t len = scene->failed_len; len < 300 + sizeof(far) / sizeof(far[0]); len++) {
		const size_t told = len < 300 ? len : far[len - 300];

		if (left_out(test))
			continue;
		call_with_length(test, scene, index, told);
		expect_answer(test, planned.refusal, "a longer list is refused with what is met first");
		call_with_length(test, scene, page_entry(index), told);
		expect_answer(test, planned.refusal, "so are its pages");
	}
}

static void try_lengths_of_lists(struct test *test, struct scene *scene)
{
	static const uint8_t last[] = { 0, 1, 11, 255 };

	test->trying = "lists of every length";
	for (unsigned planning = 0; planning < PLANNINGS; planning++)
		for (unsigned i = 0; i < sizeof(last); i++)
			try_list_lengths(test, scene, (enum planning)planning, last[i]);
}

/* ---- what comes before the list */

/* Any failed step of an empty plan is past its end. */
static void try_empty_plans(struct test *test, struct scene *scene)
{
	test->trying = "failed steps of an empty plan";
	for (unsigned shape = 0; shape < SHAPES; shape++) {
		const struct cast cast = cast_placed(shapes[shape], shape, (uint8_t)(255 - shape));

		scene_build(test, scene, &cast);
		memset(scene->wanted, 0xFF, (size_t)cast.chip.n / 4);
		for (unsigned number = 0; number < 256; number++) {
			const uint8_t failed[3] = { (uint8_t)number, 0, (uint8_t)draw(&test->state) };

			if (left_out(test))
				continue;
			scene_fail(scene, failed, 1 + number % 3);
			for (unsigned i = 1; i < REGION_ENTRIES; i++) {
				scene_call(test, region_entries[i], scene);
				expect_answer(test, REAM_RANGE, "an empty plan has no step that can fail");
			}
		}
		scene->failed_len = 0;
		expect_cast(test, scene, &cast);
	}
}

/* What the region is refused for comes before whatever is wrong with the list, and that before the step. */
static void try_order(struct test *test, struct scene *scene)
{
	static const struct {
		uint8_t failed[4];
		size_t len;
	} lists[] = {
		{ { 255 }, 1 }, { { 0, 0 }, 2 }, { { 0, 255, 0 }, 3 }, { { 1, 1, 1, 1 }, 4 }, { { 1, 0, 255 }, 3 },
		{ { 12, 0 }, 2 },
	};

	test->trying = "failed steps in troubled regions";
	for (unsigned i = 0; i < SHAPES * TROUBLES; i++) {
		const struct cast cast = cast_troubled(shapes[i / TROUBLES], i % TROUBLES);

		if (left_out(test))
			continue;
		for (unsigned k = 0; k < 2 * sizeof(lists) / sizeof(lists[0]); k++) {
			const enum entry_index index = k % 2 == 0 ? UPDATE_PLAN : RECOVERY_PLAN;
			struct planned planned;

			scene_build_changing(test, scene, &cast);
			planned = planned_of(scene, &cast, index);
			scene_fail(scene, lists[k / 2].failed, lists[k / 2].len);
			for (size_t at = 0; at < scene->failed_len; at++)
				planned_fail(&planned, &cast, scene->failed[at]);
			expect_planned(test, scene, index, &planned);
			expect_pages(test, scene, page_entry(index), &planned);
			scene_call(test, TABLE_READ, scene);
			expect(test, (ream_refusal(test->answer) == REAM_OK) == (i % TROUBLES == 0),
			       "reading a table takes no list");
		}
	}
}

/* ---- blocks readable as bad by 64 zeros */

/* The highest block is or is not readable as bad. A recovery that makes a copy goes there or to the block below, and
 * so does the primary of an update once its block has failed. Primary and mirror are in the two lowest blocks. */
static void expect_highest(struct test *test, struct scene *scene, bool bad)
{
	const uint8_t first_erase = 0;
	const unsigned target = scene->region.size - (bad ? 2 : 1);
	struct ream_step step;

	scene_fail(scene, &first_erase, 1);
	scene_call(test, UPDATE_PLAN, scene);
	step = ream_step_get(call_left(test, 4) + REAM_STEP_SIZE);
	expect(test, step.block == region_first(&scene->region) + target, "the target once a primary's block failed");
	scene->failed_len = 0;
	*region_status(&scene->region, 1, 0) = 1;
	scene_call(test, RECOVERY_PLAN, scene);
	step = ream_step_get(call_left(test, 3));
	expect(test, step.block == region_first(&scene->region) + target, "the target of a recovery");
	*region_status(&scene->region, 1, 0) = 0;
}

/* A page of the highest block has zeros in its OOB but for one byte, or in all of it. */
static void try_zeros_in(struct test *test, struct scene *scene, unsigned page, unsigned other, uint8_t status)
{
	const unsigned highest = scene->region.size - 1;
	uint8_t *oob = region_oob(&scene->region, highest, page);
	bool bad = page == 0;

	region_erase(&scene->region, highest);
	memset(oob, 0, PAGE_OOB);
	if (draw_below(&test->state, 2) == 0)
		memset(region_data(&scene->region, highest, page), 0, PAGE_DATA);
	if (other < PAGE_OOB) {
		oob[other] = (uint8_t)(1 << draw_below(&test->state, 8));
		bad = page == 0 && status == 0 && other != 0;
	}
	*region_status(&scene->region, highest, page) = status;
	expect_highest(test, scene, bad);
}

/* A signature in an OOB of zeros: not bad, whether it reads well or not. The other pages are blank, or where there is
 * none the page is unreadable, so it is no good copy. */
static void try_signature_in_zeros(struct test *test, struct scene *scene, enum kind kind, uint8_t status)
{
	const unsigned highest = scene->region.size - 1;

	region_erase(&scene->region, highest);
	memset(region_oob(&scene->region, highest, 0), 0, PAGE_OOB);
	region_sign(&scene->region, highest, 0, kind);
	*region_status(&scene->region, highest, 0) = scene->region.pages == 1 ? 1 : status;
	expect_highest(test, scene, false);
}

static void try_zeros(struct test *test, struct scene *scene)
{
	test->trying = "zeros in the OOB of a page";
	for (unsigned shape = 0; shape < SHAPES; shape++) {
		const struct cast cast = cast_settled(shapes[shape], 0, 1, 9);

		if (left_out(test))
			continue;
		scene_build_changing(test, scene, &cast);
		for (uint8_t status = 0; status < 2; status++) {
			for (unsigned page = 0; page < scene->region.pages; page++)
				for (unsigned other = 0; other <= PAGE_OOB; other++)
					try_zeros_in(test, scene, page, other, status);
			for (unsigned kind = 0; kind < KINDS; kind++)
				try_signature_in_zeros(test, scene, (enum kind)kind, status);
		}
	}
}

void test_failed(struct test *test, struct scene *scene)
{
	try_update_examples(test, scene);
	try_recovery_examples(test, scene);
	try_lists(test, scene);
	try_all_numbers(test, scene);
	try_lengths_of_lists(test, scene);
	try_empty_plans(test, scene);
	try_order(test, scene);
	try_zeros(test, scene);
}
