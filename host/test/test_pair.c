/*
 * Pairs of tables, settled and in every other case: ream_table_read, ream_recovery_plan, and what an update is
 * refused for.
 */
#include "tests.h"

#include <string.h>

#include "draw.h"
#include "outcomes.h"
#include "reamsickle.h"
#include "region.h"
#include "scenes.h"

/* ---- document 01's examples by number */

static void try_version_examples(struct test *test, struct scene *scene)
{
	static const uint8_t ahead_by_one[2][KINDS] = { { 0, 255 }, { 128, 127 } };
	struct cast cast = cast_settled((struct chip){ 8, 4 }, 3, 2, 0);

	test->trying = "document 01's versions";
	for (unsigned i = 0; i < 2; i++) {
		memcpy(cast.version, ahead_by_one[i], KINDS);
		scene_build(test, scene, &cast);
		scene_call(test, RECOVERY_PLAN, scene);
		expect_answer(test, (uint64_t)cast.version[PRIMARY] << 8 | 2 << 16,
			      "two steps, the primary's version");
		expect(test, memcmp(call_left(test, 3), "\x00\x00\x06\x00\x01\x00\x06\x00", 8) == 0,
		       "the mirror is erased and written");
		scene_call(test, TABLE_READ, scene);
		expect_answer(test, REAM_NOT_SETTLED, "d = 1 is not settled");
	}

	cast.version[PRIMARY] = 5;
	cast.version[MIRROR] = 133;
	scene_build(test, scene, &cast);
	for (unsigned i = 0; i < REGION_ENTRIES; i++) {
		scene_call(test, region_entries[i], scene);
		expect_answer(test, REAM_OPPOSITE, "versions 5 and 133 are refused");
	}
}

/* ---- settled pairs */

static void try_settled(struct test *test, struct scene *scene)
{
	test->trying = "settled pairs, every placement";
	for (unsigned chip = 0; chip < CHIPS; chip++) {
		for (unsigned i = 0; i < placements(chips[chip]); i++) {
			const struct cast cast = cast_placed(chips[chip], i, (uint8_t)draw(&test->state));

			scene_build(test, scene, &cast);
			expect_cast(test, scene, &cast);
			scene_stir(test, scene);
			expect_cast_carried_out(test, scene, &cast);
		}
	}

	test->trying = "settled pairs of every number of blocks";
	for (uint64_t n = 8; n <= 32768; n += 4 * (1 + draw_below(&test->state, 20))) {
		const struct chip chip = drawn_chip(test, n);
		const struct cast cast = cast_placed(chip, (unsigned)draw_below(&test->state, placements(chip)), 254);

		if (left_out(test))
			continue;
		scene_build(test, scene, &cast);
		scene_stir(test, scene);
		expect_cast(test, scene, &cast);
	}
}

/* ---- damage */

/* A page of a settled pair's copy of a kind, in pair i of blocks, is spoilt in a way. */
static void try_spoilt(struct test *test, struct scene *scene, struct chip chip, unsigned i, enum kind kind,
		       unsigned page, enum way way)
{
	struct cast cast = cast_placed(chip, i, 100);

	cast.page = page;
	cast.way = way;
	for (unsigned block = 0; block < chip.size; block++) {
		if (cast.role[block] == GOOD_PRIMARY && kind == PRIMARY)
			cast.role[block] = SPOILT_PRIMARY;
		if (cast.role[block] == GOOD_MIRROR && kind == MIRROR)
			cast.role[block] = SPOILT_MIRROR;
	}
	scene_build(test, scene, &cast);
	expect_cast(test, scene, &cast);
	scene_stir(test, scene);
	expect_cast_carried_out(test, scene, &cast);
}

/* Each page of each copy of a settled pair spoilt in each way, in twelve pairs of blocks: of four blocks these are
 * all, of more they go on from way to way. */
static void try_damage(struct test *test, struct scene *scene)
{
	test->trying = "one spoilt page";
	for (unsigned shape = 0; shape < SHAPES; shape++) {
		const unsigned pages = ream_table_pages(shapes[shape].n);
		const unsigned ways = pages == 1 ? OTHER_SIGNATURE : WAYS;

		for (unsigned k = 0; k < pages * ways; k++)
			for (unsigned i = 12 * k; i < 12 * k + 12; i++)
				for (unsigned kind = 0; kind < KINDS; kind++)
					if (!left_out(test))
						try_spoilt(test, scene, shapes[shape], i, (enum kind)kind, k / ways,
							   (enum way)(k % ways));
	}
}

/* A copy of a settled pair has lost one bit of a signature or of a version. `opposite`: the versions are 128
 * apart then. */
static void expect_one_bit(struct test *test, struct scene *scene, enum entry_index index, bool opposite)
{
	scene_call(test, index, scene);
	if (opposite)
		expect_answer(test, REAM_OPPOSITE, "the versions are opposite");
	else if (index == RECOVERY_PLAN)
		expect(test, ream_step_count(test->answer) == scene->region.pages + 1, "one copy is made anew");
	else if (index == RECOVERY_PAGE)
		expect_answer(test, REAM_OK, "and its first page is given");
	else
		expect_answer(test, REAM_NOT_SETTLED, "the pair is not settled");
}

/* Each bit of the signature and of the version, in each page of each copy: the pair is not settled. */
static void try_header_bits(struct test *test, struct scene *scene)
{
	test->trying = "a flipped bit of a signature or a version";
	for (unsigned shape = 0; shape < SHAPES; shape++) {
		const unsigned last = shapes[shape].size - 1;
		const struct cast cast = cast_settled(shapes[shape], 1, last, 100);
		const unsigned pages = ream_table_pages(cast.chip.n);

		scene_build_changing(test, scene, &cast);
		for (unsigned page = 0; page < pages; page++) {
			for (unsigned bit = 0; bit < 2 * 8 * 5; bit++) {
				uint8_t *oob = region_oob(&scene->region, bit < 40 ? 1 : last, page);

				if (left_out(test))
					continue;
				oob[SIGNATURE + bit % 40 / 8] ^= (uint8_t)(1 << bit % 8);
				for (unsigned i = 0; i < REGION_ENTRIES; i++)
					expect_one_bit(test, scene, region_entries[i], pages == 1 && bit % 40 == 39);
				oob[SIGNATURE + bit % 40 / 8] ^= (uint8_t)(1 << bit % 8);
			}
		}
	}
}

/* The copies, of version 255, differ in byte i of the bitmap alone. */
static void expect_merged(struct test *test, struct scene *scene, size_t i, uint8_t merged)
{
	const unsigned pages = scene->region.pages;

	scene_call(test, RECOVERY_PLAN, scene);
	expect_answer(test, 0 << 8 | (2 * pages + 2) << 16, "they are merged");
	for (unsigned copy = 0; copy < KINDS; copy++) {
		scene->step = copy * (pages + 1) + 1 + i / PAGE_DATA;
		scene_call(test, RECOVERY_PAGE, scene);
		expect_answer(test, REAM_OK, "the page of a merge is given");
		expect(test, call_left(test, 3)[i % PAGE_DATA] == merged, "the page of a merge has the AND");
	}
	scene_call(test, UPDATE_PLAN, scene);
	expect_answer(test, REAM_NOT_SETTLED, "different bitmaps are not settled");
	scene_call(test, UPDATE_PAGE, scene);
	expect_answer(test, REAM_NOT_SETTLED, "different bitmaps are not settled");
}

/* The copies differ in a single bit of the bitmap, at each byte. */
static void try_bitmap_bits(struct test *test, struct scene *scene)
{
	test->trying = "copies that differ in one bit of the bitmap";
	for (unsigned chip = 0; chip < CHIPS; chip++) {
		const uint64_t n = chips[chip].n;
		const struct cast cast = cast_placed(chips[chip], chip, 255);
		const size_t step = n < 32768 ? 1 + (size_t)n / 4000 : 1;
		unsigned mirror = 0;

		while (cast.role[mirror] != GOOD_MIRROR)
			mirror++;
		scene_build(test, scene, &cast);
		for (size_t i = 0; i < n / 4; i += step) {
			const unsigned page = (unsigned)(i / PAGE_DATA);
			uint8_t *byte = region_data(&scene->region, mirror, page) + i % PAGE_DATA;
			const uint8_t kept = *byte;

			if (left_out(test))
				continue;
			*byte ^= (uint8_t)(1 << draw_below(&test->state, 8));
			scene_call(test, TABLE_READ, scene);
			expect_answer(test, REAM_NOT_SETTLED, "different bitmaps are not settled");
			if (i % 8 == 0)
				expect_merged(test, scene, i, *byte & kept);
			*byte = kept;
		}
	}
}

/* ---- every block in every role, and all versions */

/* A cast whose roles are set, with versions, tables and the spoilt page drawn. */
static void try_roles_set(struct test *test, struct scene *scene, struct cast *cast, bool stirred)
{
	static const uint8_t ahead[] = { 0, 0, 0, 0, 1, 2, 127, 128, 129, 255 };

	cast->version[PRIMARY] = cast->version[MIRROR] = (uint8_t)draw(&test->state);
	cast->version[PRIMARY] += ahead[draw_below(&test->state, sizeof(ahead))];
	cast->equal = draw_below(&test->state, 2) == 0;
	cast_draw_spoilt(test, cast);
	scene_build(test, scene, cast);
	if (stirred) {
		expect_cast(test, scene, cast);
		scene_stir(test, scene);
	}
	expect_cast_carried_out(test, scene, cast);
}

/* Of four blocks all roles together. */
static void try_all_roles(struct test *test, struct scene *scene, struct chip chip)
{
	struct cast cast = cast_settled(chip, 0, 1, 0);

	for (unsigned all = 0; all < ROLES * ROLES * ROLES * ROLES; all++) {
		unsigned rest = all;

		if (left_out(test))
			continue;
		for (unsigned block = 0; block < chip.size; block++) {
			cast.role[block] = (enum role)(rest % ROLES);
			rest /= ROLES;
		}
		try_roles_set(test, scene, &cast, all % 3 == 0);
	}
}

/* Of more blocks some, drawn: at most three blocks in any role, and the others with no good copy, so that two of a
 * kind are not the rule. */
static void try_drawn_roles(struct test *test, struct scene *scene, struct chip chip)
{
	struct cast cast = cast_settled(chip, 0, 1, 0);

	for (unsigned i = 0; i < 400; i++) {
		if (left_out(test))
			continue;
		for (unsigned block = 0; block < chip.size; block++)
			cast.role[block] = drawn_role(test, MARKED);
		for (unsigned k = 0; k < 3; k++) {
			const uint64_t block = draw_below(&test->state, chip.size);

			cast.role[block] = drawn_role(test, GOOD_PRIMARY);
		}
		try_roles_set(test, scene, &cast, i % 3 == 0);
	}
}

static void try_roles(struct test *test, struct scene *scene)
{
	test->trying = "every block in every role";
	for (unsigned shape = 0; shape < SHAPES; shape++) {
		if (shapes[shape].size == FEWEST_REGION_BLOCKS)
			try_all_roles(test, scene, shapes[shape]);
		else
			try_drawn_roles(test, scene, shapes[shape]);
	}
}

static void try_versions(struct test *test, struct scene *scene)
{
	struct cast cast = cast_settled((struct chip){ 8, 4 }, 0, 2, 0);

	test->trying = "all pairs of versions";
	scene_build(test, scene, &cast);
	for (unsigned pair = 0; pair < 256 * 256; pair++) {
		if (left_out(test))
			continue;
		cast.version[PRIMARY] = (uint8_t)(pair / 256);
		cast.version[MIRROR] = (uint8_t)(pair % 256);
		region_oob(&scene->region, 0, 0)[VERSION] = cast.version[PRIMARY];
		region_oob(&scene->region, 2, 0)[VERSION] = cast.version[MIRROR];
		expect_cast(test, scene, &cast);
	}

	test->trying = "all differences of versions, equal and different bitmaps";
	for (unsigned shape = 0; shape < SHAPES; shape++) {
		for (unsigned i = 0; i < 2 * 256; i++) {
			const unsigned placement = (unsigned)draw_below(&test->state, placements(shapes[shape]));

			if (left_out(test))
				continue;
			cast = cast_placed(shapes[shape], placement, (uint8_t)draw(&test->state));
			cast.version[PRIMARY] += (uint8_t)(i / 2);
			cast.equal = i % 2 == 0;
			scene_build(test, scene, &cast);
			expect_cast_carried_out(test, scene, &cast);
		}
	}
}

void test_pair(struct test *test, struct scene *scene)
{
	try_version_examples(test, scene);
	try_settled(test, scene);
	try_damage(test, scene);
	try_header_bits(test, scene);
	try_bitmap_bits(test, scene);
	try_roles(test, scene);
	try_versions(test, scene);
}
