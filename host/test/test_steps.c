/* Pages by the numbers of steps: ream_update_page and ream_recovery_page. */
#include "tests.h"

#include <string.h>

#include "reamsickle.h"
#include "scenes.h"

/* Asks for pages by numbers from 0 on, and by such with a bit set that a cut to fewer bits would lose: the
 * plan's writes are given, and nothing else; with the scene's list of failed steps. */
static void expect_steps(struct test *test, struct scene *scene, enum entry_index plan_index,
			 enum entry_index page_index)
{
	static const uint64_t above[] = {
		0, 16, 64, 256, 65536, (uint64_t)1 << 31, (uint64_t)1 << 32, (uint64_t)1 << 48, (uint64_t)1 << 63,
		UINT64_MAX - 15,
	};
	const uint64_t plan = scene_call(test, plan_index, scene);
	uint8_t steps[64];

	memcpy(steps, call_left(test, entries[plan_index].buffers - 1), sizeof(steps));
	for (unsigned i = 0; i < 16 * sizeof(above) / sizeof(above[0]); i++) {
		scene->step = above[i / 16] + i % 16;
		scene_call(test, page_index, scene);
		if (ream_refusal(plan) != REAM_OK)
			expect_answer(test, ream_refusal(plan), "the refusal of the plan");
		else if (scene->step < ream_step_count(plan) && steps[4 * scene->step] == REAM_WRITE)
			expect_answer(test, REAM_OK, "the page of a write");
		else
			expect_answer(test, REAM_RANGE, "no page for an erase or zeros, nor past the plan's end");
	}
}

/* With no failed step, with one of each copy, with two, and with a zero step. */
static void expect_steps_failed(struct test *test, struct scene *scene, enum entry_index plan_index,
				enum entry_index page_index)
{
	const uint8_t second = (uint8_t)(scene->region.pages + 1);
	const uint8_t lists[5][2] = { { 0, 0 }, { 1, 0 }, { second, 0 }, { 0, 1 }, { 1, 0 } };
	static const size_t len[5] = { 0, 1, 1, 2, 2 };

	for (unsigned i = 0; i < 5; i++) {
		scene_fail(scene, lists[i], len[i]);
		expect_steps(test, scene, plan_index, page_index);
	}
}

static void try_steps(struct test *test, struct scene *scene)
{
	test->trying = "numbers of steps";
	for (unsigned pages = 1; pages <= MOST_PAGES; pages++) {
		for (unsigned trouble = 0; trouble < TROUBLES; trouble++) {
			const struct cast cast = cast_troubled(drawn_shape(test, pages), trouble);

			if (left_out(test))
				continue;
			scene_build_changing(test, scene, &cast);
			expect_steps_failed(test, scene, RECOVERY_PLAN, RECOVERY_PAGE);
			expect_steps_failed(test, scene, UPDATE_PLAN, UPDATE_PAGE);
			memset(scene->wanted, 0xFF, (size_t)cast.chip.n / 4);
			expect_steps_failed(test, scene, UPDATE_PLAN, UPDATE_PAGE);
		}
	}
}

void test_steps(struct test *test, struct scene *scene)
{
	try_steps(test, scene);
}
