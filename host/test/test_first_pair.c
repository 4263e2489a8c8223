/*
 * A chip's first pair of tables, by the header's six lines: a primary of the pages that ream_table_page gives, in a
 * region without a copy, is found alone, and a recovery makes the pair of it. Power is cut on the way, too.
 */
#include "tests.h"

#include <string.h>

#include "draw.h"
#include "reamsickle.h"
#include "region.h"
#include "rig.h"
#include "scenes.h"

/* A region without a copy, with a block for the first primary and one for its mirror that are not readable as bad. */
struct fresh {
	struct cast cast;
	unsigned primary;	/* chosen for the primary */
	unsigned mirror;	/* the highest other block that is not readable as bad: where a recovery puts it */
};

/* Makes such a region; its wanted bitmap is drawn. */
static struct fresh fresh_build(struct test *test, struct scene *scene, struct chip chip)
{
	struct fresh fresh = { .cast = cast_settled(chip, 0, 1, (uint8_t)draw(&test->state)) };
	const unsigned size = chip.size;
	unsigned spare;

	for (unsigned block = 0; block < size; block++)
		fresh.cast.role[block] = drawn_role(test, MARKED);
	fresh.primary = (unsigned)draw_below(&test->state, size);
	spare = (fresh.primary + 1 + (unsigned)draw_below(&test->state, size - 1)) % size;
	fresh.cast.role[fresh.primary] = drawn_role(test, BLANK);
	fresh.cast.role[spare] = drawn_role(test, BLANK);
	for (unsigned block = 0; block < size; block++)
		if (block != fresh.primary && fresh.cast.role[block] != MARKED)
			fresh.mirror = block;
	cast_draw_spoilt(test, &fresh.cast);
	scene_build(test, scene, &fresh.cast);
	return fresh;
}

/* A page of the first primary, as the library gives it. */
static const uint8_t *primary_page(struct test *test, struct scene *scene, uint8_t version, unsigned page)
{
	scene->kind = REAM_PRIMARY;
	scene->version = version;
	scene->place = page;
	scene_call(test, TABLE_PAGE, scene);
	expect_answer(test, REAM_OK, "a page of the primary");
	return call_left(test, 1);
}

static void expect_no_copy(struct test *test, struct scene *scene, unsigned block)
{
	scene_call(test, TABLE_READ, scene);
	expect_answer(test, REAM_NO_COPY, "there is no copy to read");
	scene_call(test, RECOVERY_PLAN, scene);
	expect_answer(test, REAM_NO_COPY, "and none to recover");
	expect(test, !region_bad(&scene->region, block), "and the primary's block is not readable as bad");
}

/* The header's line 4, with power for so many steps, the erase being the first. In the step that has no power
 * any more its pages are left as they can be. */
static void write_primary(struct test *test, struct scene *scene, const struct fresh *fresh, uint8_t version,
			  unsigned power)
{
	struct region *region = &scene->region;
	enum left left[MOST_PAGES];

	if (power == 0) {
		rig_cut_erase(&test->state, region, fresh->primary, left);
		return;
	}
	region_erase(region, fresh->primary);
	for (unsigned page = 0; page < region->pages && page < power; page++) {
		expect_no_copy(test, scene, fresh->primary);
		if (page + 1 < power)
			rig_write(&test->state, region, fresh->primary, page,
				  primary_page(test, scene, version, page));
		else
			rig_cut_write(&test->state, region, fresh->primary, page,
				      primary_page(test, scene, version, page));
	}
}

/* A recovery is planned and carried out, with the pages that the library gives. */
static void recover(struct test *test, struct scene *scene)
{
	const uint64_t plan = scene_call(test, RECOVERY_PLAN, scene);
	struct region after = scene->region;
	uint8_t steps[64];

	memcpy(steps, call_left(test, 3), sizeof(steps));
	for (unsigned i = 0; i < ream_step_count(plan); i++) {
		const struct ream_step step = ream_step_get(steps + (size_t)REAM_STEP_SIZE * i);
		const unsigned block = (unsigned)(step.block - region_first(&after));

		scene->step = i;
		if (step.kind == REAM_ERASE) {
			region_erase(&after, block);
		} else {
			scene_call(test, RECOVERY_PAGE, scene);
			expect_answer(test, REAM_OK, "a page of the recovery");
			rig_write(&test->state, &after, block, step.page, call_left(test, 3));
		}
	}
	scene->region = after;
}

/* The primary stands alone. The recovery that is carried out settles on its bitmap and its version. */
static void expect_found_alone(struct test *test, struct scene *scene, const struct fresh *fresh, uint8_t version)
{
	const struct region *region = &scene->region;
	const uint64_t first = region_first(region);

	scene_call(test, TABLE_READ, scene);
	expect_answer(test, REAM_NOT_SETTLED, "the primary is found alone");
	scene_call(test, RECOVERY_PLAN, scene);
	expect_answer(test, (uint64_t)version << 8 | (uint64_t)(region->pages + 1) << 16,
		      "P + 1 steps with its version");
	recover(test, scene);
	scene_call(test, TABLE_READ, scene);
	expect_answer(test, (uint64_t)version << 8 | (first + fresh->primary) << 16 | (first + fresh->mirror) << 32,
		      "a settled pair of its version, in the block chosen and the highest other one");
	expect(test, memcmp(call_left(test, 2), scene->wanted, (size_t)region->n / 4) == 0, "and of its bitmap");
}

/* Is every page of the primary complete? */
static bool complete(const struct scene *scene, const struct fresh *fresh)
{
	return region_good(&scene->region, fresh->primary, PRIMARY);
}

/* A first pair, on regions of all sorts without a copy, with every version. */
static void try_first_pairs(struct test *test, struct scene *scene)
{
	test->trying = "a chip's first pair";
	for (unsigned i = 0; i < 4 * 256; i++) {
		const uint8_t version = (uint8_t)i;
		struct fresh fresh;

		if (left_out(test))
			continue;
		fresh = fresh_build(test, scene, shapes[draw_below(&test->state, SHAPES)]);
		expect_no_copy(test, scene, fresh.primary);
		write_primary(test, scene, &fresh, version, UINT32_MAX);
		expect(test, complete(scene, &fresh), "the primary's pages make a good primary");
		expect_found_alone(test, scene, &fresh, version);
	}
}

/* Power is cut, or a step fails, in each step of making the primary: it is complete and found alone, or no copy is
 * found. Then the same lines make it, from their start. */
static void try_cut_first_pairs(struct test *test, struct scene *scene)
{
	unsigned ended[2] = { 0, 0 };

	test->trying = "a chip's first pair, with power cuts";
	for (unsigned i = 0; i < 40 * SHAPES; i++) {
		const struct chip chip = shapes[i % SHAPES];
		const uint8_t version = (uint8_t)draw(&test->state);
		struct fresh fresh;

		if (left_out(test))
			continue;
		fresh = fresh_build(test, scene, chip);
		write_primary(test, scene, &fresh, version, i / SHAPES % (ream_table_pages(chip.n) + 1));
		ended[complete(scene, &fresh)]++;
		if (!complete(scene, &fresh)) {
			expect_no_copy(test, scene, fresh.primary);
			write_primary(test, scene, &fresh, version, UINT32_MAX);
		}
		expect_found_alone(test, scene, &fresh, version);
	}
	expect(test, test->one_in > 1 || (ended[0] > 0 && ended[1] > 0), "cuts leave the primary both ways");
}

/* Every block but the primary's is readable as bad: the recovery is refused. */
static void try_no_other_block(struct test *test, struct scene *scene)
{
	test->trying = "a chip's first pair with no block for the mirror";
	for (unsigned shape = 0; shape < SHAPES; shape++) {
		for (unsigned primary = 0; primary < shapes[shape].size; primary++) {
			struct fresh fresh = { cast_settled(shapes[shape], 0, 1, 9), primary, primary };

			for (unsigned block = 0; block < shapes[shape].size; block++)
				fresh.cast.role[block] = block == primary ? BLANK : MARKED;
			scene_build(test, scene, &fresh.cast);
			write_primary(test, scene, &fresh, 77, UINT32_MAX);
			scene_call(test, TABLE_READ, scene);
			expect_answer(test, REAM_NOT_SETTLED, "the primary is found alone");
			scene_call(test, RECOVERY_PLAN, scene);
			expect_answer(test, REAM_NO_TARGET, "there is no block for the mirror");
		}
	}
}

void test_first_pair(struct test *test, struct scene *scene)
{
	try_first_pairs(test, scene);
	try_cut_first_pairs(test, scene);
	try_no_other_block(test, scene);
}
