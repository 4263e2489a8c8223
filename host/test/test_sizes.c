/*
 * Regions of every size: where a recovery looks for its target, copies in any of the blocks, and tables that lie
 * below the region that is stated.
 */
#include "tests.h"

#include <string.h>

#include "draw.h"
#include "outcomes.h"
#include "reamsickle.h"
#include "region.h"
#include "scenes.h"

/* ---- targets */

/* One kind alone good, in this block. Bit b of `bad` says that block b is readable as bad; every other block is
 * neither that nor a good copy. */
static void try_target(struct test *test, struct scene *scene, struct chip chip, unsigned good, unsigned bad)
{
	struct cast cast = cast_settled(chip, 0, 1, (uint8_t)draw(&test->state));
	uint64_t target = 0;

	for (unsigned block = 0; block < chip.size; block++) {
		cast.role[block] = bad >> block & 1 ? MARKED : drawn_role(test, BLANK);
		if (block != good && !(bad >> block & 1))
			target = chip.n - chip.size + block;
	}
	cast.role[good] = draw_below(&test->state, 2) == 0 ? GOOD_PRIMARY : GOOD_MIRROR;
	cast_draw_spoilt(test, &cast);
	scene_build(test, scene, &cast);
	scene_call(test, RECOVERY_PLAN, scene);
	if (target == 0)
		expect_answer(test, REAM_NO_TARGET, "with all other blocks bad there is no target");
	else
		expect(test, ream_step_get(call_left(test, 3)).block == target, "the highest block that will do");
	expect_cast_carried_out(test, scene, &cast);
}

/* Every block as the good one, and every set of the others as bad. */
static void try_targets(struct test *test, struct scene *scene)
{
	test->trying = "targets of a recovery";
	for (unsigned shape = 0; shape < SHAPES; shape++) {
		const struct chip chip = shapes[shape];

		for (unsigned good = 0; good < chip.size; good++)
			for (unsigned bad = 0; bad < 1u << chip.size; bad++)
				if (!(bad >> good & 1) && !left_out(test))
					try_target(test, scene, chip, good, bad);
	}
}

/* ---- copies */

/* Two good copies of a kind in these blocks, with one of the other kind in a third, or none. */
static void try_two(struct test *test, struct scene *scene, struct chip chip, enum role role, unsigned one,
		    unsigned other)
{
	struct cast cast = cast_settled(chip, 0, 1, (uint8_t)draw(&test->state));
	const unsigned third = (unsigned)draw_below(&test->state, chip.size);

	for (unsigned block = 0; block < chip.size; block++)
		cast.role[block] = drawn_role(test, MARKED);
	cast.role[third] = role == GOOD_PRIMARY ? GOOD_MIRROR : GOOD_PRIMARY;
	cast.role[one] = cast.role[other] = role;
	cast_draw_spoilt(test, &cast);
	scene_build(test, scene, &cast);
	for (unsigned i = 0; i < REGION_ENTRIES; i++) {
		scene_call(test, region_entries[i], scene);
		expect_answer(test, REAM_SEVERAL_COPIES, "two good copies of a kind are refused");
	}
}

static void try_several(struct test *test, struct scene *scene)
{
	test->trying = "two copies of a kind in any two blocks";
	for (unsigned shape = 0; shape < SHAPES; shape++)
		for (unsigned one = 0; one < shapes[shape].size; one++)
			for (unsigned other = 0; other < one; other++)
				for (enum role role = GOOD_PRIMARY; role <= GOOD_MIRROR; role++)
					try_two(test, scene, shapes[shape], role, one, other);
}

/* ---- tables below the region */

/* The same chip with its region stated as the last `size` blocks alone: the blocks below are not lent. */
static void narrow(struct scene *scene, struct cast *cast, unsigned size)
{
	const unsigned below = cast->chip.size - size;
	struct region *region = &scene->region;

	memmove(cast->role, cast->role + below, size * sizeof(cast->role[0]));
	cast->chip.size = size;
	memmove(region->image, region_page(region, below, 0), (size_t)size * region->pages * PAGE_BYTES);
	memmove(region->status, region_status(region, below, 0), (size_t)size * region->pages);
	region->size = size;
}

/* A settled pair in these blocks of the chip, and blank blocks beside it, with a region of this size. */
static void expect_found(struct test *test, const struct scene *scene, struct chip chip, uint64_t primary,
			 uint64_t mirror, uint8_t version)
{
	const uint64_t first = chip.n - chip.size;
	const unsigned found = (primary >= first) + (mirror >= first);
	const unsigned steps = found == KINDS ? 0 : scene->region.pages + 1;

	scene_call(test, TABLE_READ, scene);
	if (found == KINDS)
		expect_answer(test, (uint64_t)version << 8 | primary << 16 | mirror << 32,
			      "a pair in the region is found");
	else
		expect_answer(test, found == 0 ? REAM_NO_COPY : REAM_NOT_SETTLED,
			      "what lies below the region is not found");
	scene_call(test, RECOVERY_PLAN, scene);
	expect_answer(test, found == 0 ? REAM_NO_COPY : (uint64_t)version << 8 | steps << 16,
		      "a copy that is not found is made anew");
}

/* A settled pair in these blocks of the region, read with a region of that size and of every smaller one. */
static void try_narrower(struct test *test, struct scene *scene, struct chip chip, unsigned primary, unsigned mirror)
{
	const uint64_t first = chip.n - chip.size;
	struct cast cast = cast_settled(chip, primary, mirror, (uint8_t)draw(&test->state));

	scene_build(test, scene, &cast);
	for (unsigned size = chip.size; size >= FEWEST_REGION_BLOCKS; size--) {
		narrow(scene, &cast, size);
		expect_found(test, scene, cast.chip, first + primary, first + mirror, cast.version[PRIMARY]);
		expect_cast(test, scene, &cast);
	}
}

static void try_below(struct test *test, struct scene *scene)
{
	test->trying = "tables below the region";
	for (unsigned shape = 0; shape < SHAPES; shape++)
		for (unsigned primary = 0; primary < shapes[shape].size; primary++)
			for (unsigned mirror = 0; mirror < shapes[shape].size; mirror++)
				if (primary != mirror && !left_out(test))
					try_narrower(test, scene, shapes[shape], primary, mirror);
}

void test_sizes(struct test *test, struct scene *scene)
{
	try_targets(test, scene);
	try_several(test, scene);
	try_below(test, scene);
}
