/*
 * Updates: ream_update_plan and ream_update_page. Entries that are not good are kept, and an update that changes
 * nothing has no step.
 */
#include "tests.h"

#include <string.h>

#include "draw.h"
#include "outcomes.h"
#include "reamsickle.h"
#include "region.h"
#include "scenes.h"

/* Entries good, late, reserved, factory for blocks 0-3: byte 27. As the header's functions have it, and as a
 * table that an update makes and that is read back. */
static void try_entry_example(struct test *test, struct scene *scene)
{
	const struct cast cast = cast_settled((struct chip){ 8, 4 }, 3, 2, 7);
	uint8_t bitmap[2] = { 0x00, 0xFF };

	test->trying = "document 01's entries";
	ream_entry_set(bitmap, 0, REAM_ENTRY_GOOD);
	ream_entry_set(bitmap, 1, REAM_ENTRY_LATE);
	ream_entry_set(bitmap, 2, REAM_ENTRY_RESERVED);
	ream_entry_set(bitmap, 3, REAM_ENTRY_FACTORY);
	expect(test, bitmap[0] == 0x27 && bitmap[1] == 0xFF, "good, late, reserved, factory are byte 27");

	memset(scene->table, 0xFF, sizeof(scene->table));
	memcpy(scene->wanted, bitmap, 2);
	scene_rebuild(test, scene, &cast);
	expect_cast_carried_out(test, scene, &cast);
	expect(test, scene->made[0] == 0x27 && scene->made[1] == 0xFF, "the update that is read back has byte 27");
}

/* A settled pair that holds a table is given this wanted bitmap. */
static void try_wanted(struct test *test, struct scene *scene, const struct cast *cast, const uint8_t *old,
		       const uint8_t *wanted)
{
	const size_t len = (size_t)cast->chip.n / 4;

	memcpy(scene->table[PRIMARY], old, len);
	memcpy(scene->table[MIRROR], old, len);
	memcpy(scene->wanted, wanted, len);
	scene_rebuild(test, scene, cast);
	expect_cast_carried_out(test, scene, cast);
}

/* All pairs of an old and a wanted byte of the bitmap: no step exactly where each entry that is good stays so.
 * The other byte has an entry of each kind, and its factory entry is wanted good, which is no change. */
static void try_all_bytes(struct test *test, struct scene *scene)
{
	static const unsigned block[KINDS] = { 2, 0 };
	const struct cast cast = cast_settled((struct chip){ 8, 4 }, block[PRIMARY], block[MIRROR], 255);
	const uint8_t *page;

	test->trying = "all pairs of an old and a wanted byte";
	scene_build(test, scene, &cast);
	for (unsigned pair = 0; pair < 256 * 256; pair++) {
		const unsigned byte = pair / 256 % 2;
		const uint8_t old = (uint8_t)(pair / 256), wanted = (uint8_t)pair;
		unsigned made = old;

		if (left_out(test))
			continue;
		for (unsigned k = 0; k < 8; k += 2)
			if ((old >> k & 3) == 3)
				made = (made & ~(3u << k)) | (wanted & 3u << k);
		for (unsigned kind = 0; kind < KINDS; kind++) {
			region_data(&scene->region, block[kind], 0)[byte] = old;
			region_data(&scene->region, block[kind], 0)[1 - byte] = 0x1B;
		}
		scene->wanted[byte] = wanted;
		scene->wanted[1 - byte] = 0xDB;
		scene_call(test, UPDATE_PLAN, scene);
		expect_answer(test, made != old ? 0 << 8 | 4 << 16 : 255 << 8,
			      "an update changes good entries alone");
		scene->step = pair % 2 == 0 ? 1 : 3;
		scene_call(test, UPDATE_PAGE, scene);
		expect_answer(test, made != old ? REAM_OK : REAM_RANGE, "an update that changes nothing has no page");
		page = call_left(test, 4);
		expect(test, made == old || (page[byte] == made && page[1 - byte] == 0x1B), "the page's bytes");
	}
}

/* One block's entry, old and wanted of every kind, all others good. */
static void try_one_entry(struct test *test, struct scene *scene, const struct cast *cast, uint64_t block)
{
	uint8_t old[MOST_BITMAP], wanted[MOST_BITMAP];

	memset(old, 0xFF, (size_t)cast->chip.n / 4);
	memset(wanted, 0xFF, (size_t)cast->chip.n / 4);
	for (unsigned pair = 0; pair < 4 * 4; pair++) {
		const unsigned pages = ream_table_pages(cast->chip.n);
		const bool changes = pair / 4 == REAM_ENTRY_GOOD && pair % 4 != REAM_ENTRY_GOOD;

		if (left_out(test))
			continue;
		ream_entry_set(old, block, pair / 4);
		ream_entry_set(wanted, block, pair % 4);
		try_wanted(test, scene, cast, old, wanted);
		expect(test, ream_entry_get(scene->made, block) == (changes ? pair % 4 : pair / 4),
		       "an entry that is not good is kept");
		scene_rebuild(test, scene, cast);
		scene_call(test, UPDATE_PLAN, scene);
		expect(test, ream_step_count(test->answer) == (changes ? 2 * pages + 2 : 0),
		       "2P + 2 steps for a change, none for no change");
	}
}

static void try_updates(struct test *test, struct scene *scene)
{
	for (unsigned chip = 0; chip < CHIPS; chip++) {
		const uint64_t n = chips[chip].n, first = n - chips[chip].size;
		const uint64_t edges[] = { 0, 1, 2, 3, 4, n / 2, first - 1, first, first + 1, n - 2, n - 1 };
		const struct cast cast = cast_placed(chips[chip], chip, (uint8_t)(250 + chip));

		test->trying = "an update of one entry, old and wanted of every kind";
		for (unsigned i = 0; i < sizeof(edges) / sizeof(edges[0]); i++)
			try_one_entry(test, scene, &cast, edges[i]);
		for (uint64_t border = 8192; border < n; border += 8192) {
			try_one_entry(test, scene, &cast, border - 1);
			try_one_entry(test, scene, &cast, border);
		}
	}
}

/* One entry at each byte of the largest bitmap. */
static void try_each_byte(struct test *test, struct scene *scene)
{
	const struct cast cast = cast_settled((struct chip){ 32768, 7 }, 6, 0, 17);

	test->trying = "an update of one entry at each byte";
	scene_build(test, scene, &cast);
	memset(scene->table, 0xFF, sizeof(scene->table));
	scene_rebuild(test, scene, &cast);
	memset(scene->wanted, 0xFF, MOST_BITMAP);
	for (unsigned i = 0; i < MOST_BITMAP; i++) {
		if (left_out(test))
			continue;
		ream_entry_set(scene->wanted, 4 * i + i % 4, i % 3);
		scene_call(test, UPDATE_PLAN, scene);
		expect_answer(test, 18 << 8 | 10 << 16, "ten steps and the next version");
		scene->step = 1 + i / PAGE_DATA;
		scene_call(test, UPDATE_PAGE, scene);
		expect(test, call_left(test, 4)[i % PAGE_DATA] == scene->wanted[i], "the entry in its page");
		scene->wanted[i] = 0xFF;
	}
}

static void try_drawn_updates(struct test *test, struct scene *scene)
{
	for (unsigned i = 0; i < 1500; i++) {
		const struct chip chip = chips[draw_below(&test->state, CHIPS)];
		const uint64_t n = chip.n;
		const unsigned placement = (unsigned)draw_below(&test->state, placements(chip));
		const struct cast cast = cast_placed(chip, placement, (uint8_t)draw(&test->state));
		uint8_t old[MOST_BITMAP], wanted[MOST_BITMAP];

		if (left_out(test))
			continue;
		draw_bytes(&test->state, old, (size_t)n / 4);
		draw_bytes(&test->state, wanted, (size_t)n / 4);
		test->trying = "an update of many entries";
		if (i % 2 == 0) {
			/* what is wanted of good entries is that they stay good: only others are attacked */
			test->trying = "an update that changes nothing";
			for (uint64_t block = 0; block < n; block++)
				if (ream_entry_get(old, block) == REAM_ENTRY_GOOD)
					ream_entry_set(wanted, block, REAM_ENTRY_GOOD);
		}
		try_wanted(test, scene, &cast, old, wanted);
		if (i % 2 == 0)
			expect(test, memcmp(scene->made, old, (size_t)n / 4) == 0, "the table is kept");
	}
}

void test_update(struct test *test, struct scene *scene)
{
	try_entry_example(test, scene);
	try_all_bytes(test, scene);
	try_updates(test, scene);
	try_each_byte(test, scene);
	try_drawn_updates(test, scene);
}
