/* The region's entries on regions that are drawn, and on bytes that must not count. */
#include "tests.h"

#include <string.h>

#include "draw.h"
#include "reamsickle.h"
#include "region.h"
#include "scenes.h"

/* A page that is drawn from a few choices, so that several of a block often agree. */
static void draw_page(struct test *test, struct scene *scene, unsigned block, unsigned page, enum kind kind)
{
	static const uint8_t versions[] = { 0, 1, 127, 128, 255 };
	const uint64_t choice = draw_below(&test->state, 16);
	const uint8_t version = versions[choice < 12 ? block % 2 : draw_below(&test->state, sizeof(versions))];
	uint8_t *oob = region_oob(&scene->region, block, page);

	region_write(&scene->region, block, page, choice == 15 ? (enum kind)(1 - kind) : kind, version,
		     scene->table[choice % 8 == 0 ? MIRROR : PRIMARY]);
	if (choice == 14)
		draw_bytes(&test->state, oob + SIGNATURE, 4);
	if (choice == 13)
		memset(region_data(&scene->region, block, page), 0xFF, PAGE_BYTES);
	if (draw_below(&test->state, 12) == 0)
		memset(oob, 0, PAGE_OOB);
	if (draw_below(&test->state, 2) == 0)
		oob[0] = 0;
	*region_status(&scene->region, block, page) = draw_below(&test->state, 12) == 0;
}

/* The same answer, and the same page, before and after the bytes that must not count are drawn anew. */
static void expect_unmoved(struct test *test, struct scene *scene, enum entry_index index)
{
	const uint64_t answer = scene_call(test, index, scene);
	const bool page_given = gives_page(index) && ream_refusal(answer) == REAM_OK;
	uint8_t page[PAGE_BYTES] = { 0 };

	if (page_given)
		memcpy(page, call_left(test, entries[index].buffers - 1), PAGE_BYTES);
	scene_stir(test, scene);
	scene_call(test, index, scene);
	expect_answer(test, answer, "bytes that must not count change no answer");
	expect(test, !page_given || memcmp(page, call_left(test, entries[index].buffers - 1), PAGE_BYTES) == 0,
	       "bytes that must not count change no page");
}

/* Nothing is claimed of these but that library and reference agree, and go on agreeing with their own
 * answers when the bytes that must not count are drawn anew. */
static void try_drawn_regions(struct test *test, struct scene *scene)
{
	test->trying = "drawn regions";
	for (unsigned i = 0; i < 12000; i++) {
		struct cast cast;

		if (left_out(test))
			continue;
		cast = cast_settled(shapes[draw_below(&test->state, SHAPES)], 0, 1, 0);
		cast.equal = draw_below(&test->state, 2) == 0;
		scene_build(test, scene, &cast);
		for (unsigned block = 0; block < cast.chip.size; block++) {
			const enum kind kind = (enum kind)draw_below(&test->state, KINDS);

			for (unsigned page = 0; page < scene->region.pages; page++)
				draw_page(test, scene, block, page, kind);
			/* so often that a wider region has about as many good copies as one of four blocks */
			if (draw_below(&test->state, 3 * cast.chip.size) >= 8)
				region_oob(&scene->region, block, 0)[SIGNATURE] ^= 0x80;
		}
		scene->step = draw_below(&test->state, 12);
		for (uint64_t failed = draw_below(&test->state, 4); failed > 0; failed--)
			scene_fail_too(scene, (uint8_t)draw_below(&test->state, 12));
		for (unsigned k = 0; k < REGION_ENTRIES; k++)
			expect_unmoved(test, scene, region_entries[k]);
	}

	test->trying = "senseless regions";
	for (unsigned i = 0; i < 200; i++) {
		if (left_out(test))
			continue;
		region_begin(&scene->region, chips[i % CHIPS].n, chips[i % CHIPS].size);
		draw_bytes(&test->state, scene->region.image, region_image_len(&scene->region));
		for (unsigned k = 0; k < REGION_ENTRIES; k++) {
			scene_call(test, region_entries[k], scene);
			expect_answer(test, REAM_NO_COPY, "there is no copy in drawn bytes");
		}
	}
}

void test_drawn(struct test *test, struct scene *scene)
{
	try_drawn_regions(test, scene);
}
