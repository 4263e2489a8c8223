/*
 * Arguments that are wrong, of every entry: numbers of blocks, sizes of the region, lengths and status bytes, each
 * alone and all together with what is wrong in a region or among boot blocks. Refusals come exactly where they have
 * to, in document 01's order.
 */
#include "tests.h"

#include <string.h>

#include "boots.h"
#include "draw.h"
#include "lengths.h"
#include "outcomes.h"
#include "reamsickle.h"
#include "region.h"
#include "scenes.h"
#include "small_pages.h"

/* The first of the large chip's entries from number i on, or ENTRIES. */
static enum entry_index large_from(unsigned i)
{
	while (i < ENTRIES && !has_number((enum entry_index)i, "n"))
		i++;
	return (enum entry_index)i;
}

static void try_chip_examples(struct test *test, struct scene *scene)
{
	static const uint64_t refused[3] = { 4, 10, 32772 };
	static const unsigned pages[2] = { 1, 2 };

	test->trying = "document 01's numbers of blocks";
	for (unsigned i = 0; i < 2; i++) {
		const struct cast cast = cast_settled((struct chip){ i == 0 ? 8192 : 8196, 4 }, 0, 1, 9);

		expect(test, ream_table_pages(cast.chip.n) == pages[i], "8,192 blocks fill one page, 8,196 two");
		scene_build_changing(test, scene, &cast);
		scene_call(test, UPDATE_PLAN, scene);
		expect_answer(test, (uint64_t)10 << 8 | (2 * pages[i] + 2) << 16, "an update has 2P + 2 steps");
	}
	for (unsigned i = 0; i < 3; i++) {
		for (enum entry_index index = large_from(0); index < ENTRIES; index = large_from(index + 1)) {
			scene_set_up(test, index, scene);
			test->call.number[0] = refused[i];
			call_compare(test);
			expect_answer(test, REAM_RANGE, "4, 10 and 32,772 blocks are refused");
		}
	}
}

/* ---- numbers of blocks, and sizes of the region */

/* Makes the call that is set up with these numbers. Where they are no chip's it is refused with 2, whatever the
 * lengths are; otherwise with `else_refusal`, or not at all. */
static void expect_chip_judged(struct test *test, uint64_t n, uint64_t size, unsigned else_refusal)
{
	test->call.number[0] = n;
	test->call.number[1] = size;
	call_compare(test);
	if (is_chip(n, size))
		expect_answer(test, else_refusal, "a chip's number of blocks and size are taken");
	else
		expect_answer(test, REAM_RANGE, "what is no chip's number of blocks and size is refused first");
}

/* With the lengths that go with these numbers. All pages read well, and there is no copy. A page that is asked for
 * without a plan is a primary's first. */
static void try_own_lengths(struct test *test, enum entry_index index, uint64_t n, uint64_t size)
{
	call_begin_large(test, index, n, size);
	call_set_named(test, "kind", REAM_PRIMARY);
	call_set_named(test, "version", 0);
	call_set_named(test, "place", 0);
	for (unsigned i = 0; i < entries[index].buffers; i++)
		if (entries[index].buffer[i].direction == IN)
			memset(test->call.bytes[i], 0, lent_held(test->call.len[i]));
	expect_chip_judged(test, n, size, has_buffer(index, "image") ? REAM_NO_COPY : REAM_OK);
}

/* With no bytes at all. */
static void try_no_lengths(struct test *test, enum entry_index index, uint64_t n, uint64_t size)
{
	call_begin_large(test, index, n, size);
	memset(test->call.len, 0, sizeof(test->call.len));
	expect_chip_judged(test, n, size, REAM_LENGTH);
}

/* Every number of blocks worth trying, with every size. */
static void try_chips(struct test *test)
{
	static const uint64_t numbers[] = {
		8, 12, 16, 20, 24, 1024, 8192, 8196, 16384, 16388, 24576, 24580, 32764, 32768,
		0, 4, 6, 10, 11, 13, 14, 15, 18, 32766, 32772, ((uint64_t)1 << 32) + 8, ((uint64_t)1 << 32) + 16,
	};

	test->trying = "sizes of the region";
	for (enum entry_index index = large_from(0); index < ENTRIES; index = large_from(index + 1)) {
		for (unsigned i = 0; i < sizeof(numbers) / sizeof(numbers[0]); i++) {
			for (unsigned k = 0; k < REGION_SIZES + NO_SIZES; k++) {
				const uint64_t size = k < REGION_SIZES ? FEWEST_REGION_BLOCKS + k :
						      no_sizes[k - REGION_SIZES];

				if (left_out(test))
					continue;
				try_own_lengths(test, index, numbers[i], size);
				try_no_lengths(test, index, numbers[i], size);
			}
		}
	}
}

/* Wrong numbers beside lengths, bytes and steps that are right for a chip. */
static void try_wrong_numbers(struct test *test, struct scene *scene)
{
	test->trying = "no number of blocks, or no size of a region, with lengths of a chip";
	for (unsigned chip = 0; chip < CHIPS; chip++) {
		const struct cast cast = cast_settled(chips[chip], 2, 3, 4);

		scene_build(test, scene, &cast);
		for (enum entry_index index = large_from(0); index < ENTRIES; index = large_from(index + 1)) {
			for (unsigned i = 0; i < NO_NUMBERS + NO_SIZES; i++) {
				if (left_out(test))
					continue;
				scene_set_up(test, index, scene);
				if (i < NO_NUMBERS)
					test->call.number[0] = no_numbers[i];
				else
					test->call.number[1] = no_sizes[i - NO_NUMBERS];
				call_compare(test);
				expect_answer(test, REAM_RANGE, "it is refused");
			}
		}
	}
}

/* All up to 64, those about a multiple of 1,024, and some between. */
static void try_numbers_of_blocks(struct test *test)
{
	test->trying = "numbers of blocks from 0 on";
	for (enum entry_index index = large_from(0); index < ENTRIES; index = large_from(index + 1)) {
		for (uint64_t n = 0; n <= 33000; n++) {
			if ((n > 64 && n % 1024 > 8 && n % 13 != 0) || left_out(test))
				continue;
			try_own_lengths(test, index, n, 3 + draw_below(&test->state, 6));
		}
		for (unsigned i = 0; i < NO_NUMBERS; i++)
			try_own_lengths(test, index, no_numbers[i], 4 + draw_below(&test->state, 4));
	}
}

/* Numbers of small-chip blocks, from 0 on and far too large. What is too large is refused with lengths that go with it,
 * with those of as many blocks as there can be, and with none. */
static void try_small_numbers(struct test *test)
{
	static const uint64_t too_large[] = {
		1025, 1026, 1027, 1028, 1056, 1088, 1152, 1280, 1536, 2046, 2047, 2048, 2049, 3072, 4096, 8192, 32767,
		32768, 65535, 65536, 65537, 65538, 66559, 66560, UINT32_MAX, (uint64_t)1 << 32, ((uint64_t)1 << 32) + 1,
		((uint64_t)1 << 32) + 2, ((uint64_t)1 << 32) + 1024, (uint64_t)1 << 48, ((uint64_t)1 << 48) + 2,
		((uint64_t)1 << 59) + 1, (uint64_t)1 << 60, (uint64_t)1 << 63, ((uint64_t)1 << 63) + 1,
		((uint64_t)1 << 63) + 1024, UINT64_MAX - 1024, UINT64_MAX - 1, UINT64_MAX,
	};
	struct boots boots;

	test->trying = "numbers of small-chip blocks";
	for (uint64_t number = 0; number <= 1200; number++) {
		if ((number > 40 && number % 128 > 2 && number % 128 < 126) || left_out(test))
			continue;
		call_begin_small(test, BOOT_MAP, number);
		memset(test->call.bytes[0], 0xFF, lent_held(test->call.len[0]));
		call_compare(test);
		expect_answer(test, number <= 1024 ? REAM_OK : REAM_RANGE, "up to 1,024 blocks are taken");
	}
	boots_begin(test, &boots, MOST_BOOTS, RISING);
	boots_lay(test, &boots, 1, 0);
	for (unsigned i = 0; i < sizeof(too_large) / sizeof(too_large[0]); i++) {
		for (unsigned lengths = 0; lengths < 3; lengths++) {
			boots_set_up(test, BOOT_MAP, &boots);
			test->call.number[0] = too_large[i];
			for (unsigned k = 0; k < 3 && lengths > 0; k++)
				test->call.len[k] = lengths == 1 ? 0 : entries[BOOT_MAP].buffer[k].len *
						    (size_t)too_large[i];
			call_compare(test);
			expect_answer(test, REAM_RANGE, "more are refused, whatever the lengths are");
		}
	}
}

/* ---- lengths */

static void try_page_lengths(struct test *test)
{
	const struct page good = page_drawn(test);
	struct page bad = good;

	bad.tag = 0x55;
	bad.path = REAM_PATH_MAX + 1;
	bad.count = REAM_COUNT_MAX + 1;
	memset(bad.spare, 0x55, 16);
	for (unsigned i = 0; i < ENTRIES; i++) {
		if (has_number((enum entry_index)i, "n") || has_number((enum entry_index)i, "number"))
			continue;
		test->trying = "lengths, nothing else wrong";
		try_lengths(test, (enum entry_index)i, page_call, &good);
		test->trying = "lengths, all else wrong too";
		try_lengths(test, (enum entry_index)i, page_call, &bad);
	}
}

/* With as many blocks as there can be, and with few; in order, and with a boot number missing. */
static void try_boot_lengths(struct test *test)
{
	static const unsigned numbers[] = { 0, 1, 2, 3, 1024 };
	struct boots boots;

	for (unsigned i = 0; i < sizeof(numbers) / sizeof(numbers[0]); i++) {
		test->trying = "lengths, nothing else wrong";
		boots_begin(test, &boots, numbers[i], RISING);
		if (boots.used < boots.number)
			boots_one(test, &boots, 0);
		expect_boots(test, &boots);
		try_lengths(test, BOOT_MAP, boots_set_up, &boots);
		test->trying = "lengths, all else wrong too";
		boots_begin(test, &boots, numbers[i], RISING);
		if (boots.used < boots.number)
			boots_lay(test, &boots, 1, 0);
		try_lengths(test, BOOT_MAP, boots_set_up, &boots);
	}
}

/* A cast on which an entry has something to answer: of a recovery's pages there is none in a settled pair. */
static struct cast cast_answered(struct chip chip, enum entry_index index)
{
	struct cast cast = cast_settled(chip, 0, 3, 77);

	if (index == RECOVERY_PAGE)
		cast.version[PRIMARY]++;
	return cast;
}

static void try_region_lengths(struct test *test, struct scene *scene)
{
	static const struct chip tried[] = { { 8, 4 }, { 16, 7 }, { 16388, 5 } };

	for (unsigned i = 0; i < sizeof(tried) / sizeof(tried[0]); i++) {
		for (enum entry_index index = large_from(0); index < ENTRIES; index = large_from(index + 1)) {
			struct cast cast = cast_answered(tried[i], index);

			test->trying = "lengths, nothing else wrong";
			scene_build_changing(test, scene, &cast);
			scene_call(test, index, scene);
			expect(test, ream_refusal(test->answer) == REAM_OK, "nothing else is wrong");
			try_lengths(test, index, scene_set_up, scene);
			test->trying = "lengths, all else wrong too";
			cast.equal = false;
			scene_build(test, scene, &cast);
			scene->region.status[i] = 2;
			scene_fail_too(scene, 255);
			scene->step = scene->kind = scene->version = scene->place = UINT64_MAX;
			try_lengths(test, index, scene_set_up, scene);
		}
	}
}

/* Are the lengths that go with one chip those that go with another? Those of a region's pages can be: four blocks
 * of three pages are as many as six of two. */
static bool same_lengths(enum entry_index index, struct chip left, struct chip right)
{
	const bool same_pages = left.size * ream_table_pages(left.n) == right.size * ream_table_pages(right.n);
	const bool takes_bitmap = has_buffer(index, "bitmap") || has_buffer(index, "wanted");

	return (same_pages || !has_buffer(index, "image")) && (left.n == right.n || !takes_bitmap);
}

/* A call that is told one chip and lent the settled region of another, with its lengths. */
static void expect_judged_across(struct test *test, const struct scene *scene, enum entry_index index,
				 struct chip told, struct chip lent)
{
	scene_set_up(test, index, scene);
	test->call.number[0] = told.n;
	test->call.number[1] = told.size;
	call_compare(test);
	expect(test, (ream_refusal(test->answer) == REAM_LENGTH) == !same_lengths(index, told, lent),
	       "refusal 1 comes exactly with another chip's lengths");
	if (told.size == lent.size && same_lengths(index, told, lent))
		expect(test, ream_refusal(test->answer) == (index == RECOVERY_PAGE ? REAM_RANGE : REAM_OK),
		       "a settled pair is taken, and has no page for a recovery");
}

/* The lengths that go with another chip. */
static void try_lengths_of_other_chips(struct test *test, struct scene *scene)
{
	test->trying = "lengths of another chip";
	for (unsigned lent = 0; lent < CHIPS; lent++) {
		const struct cast cast = cast_settled(chips[lent], 2, 3, 4);

		scene_build_changing(test, scene, &cast);
		for (unsigned told = 0; told < CHIPS; told++)
			for (enum entry_index index = large_from(0); index < ENTRIES; index = large_from(index + 1))
				expect_judged_across(test, scene, index, chips[told], chips[lent]);
	}
}

/* ---- status bytes */

static void expect_status_refused(struct test *test, struct scene *scene, unsigned place, uint8_t byte)
{
	const uint8_t kept = scene->region.status[place];

	scene->region.status[place] = byte;
	for (unsigned i = 0; i < REGION_ENTRIES; i++) {
		scene_call(test, region_entries[i], scene);
		expect_answer(test, REAM_RANGE, "a status byte other than 0 and 1 is refused");
	}
	scene->region.status[place] = kept;
}

static void try_status_bytes(struct test *test, struct scene *scene)
{
	static const uint8_t bytes[] = { 2, 3, 16, 127, 128, 129, 254, 255 };

	test->trying = "status bytes at each place";
	for (unsigned chip = 0; chip < CHIPS; chip++) {
		const struct cast cast = cast_placed(chips[chip], chip, 8);

		scene_build(test, scene, &cast);
		for (unsigned place = 0; place < region_status_len(&scene->region); place++)
			for (unsigned k = 0; k < sizeof(bytes); k++)
				expect_status_refused(test, scene, place, bytes[k]);
	}

	test->trying = "all status bytes";
	for (unsigned byte = 2; byte < 256; byte++)
		expect_status_refused(test, scene, byte % region_status_len(&scene->region), (uint8_t)byte);
}

/* ---- the order of the refusals */

/* A call on a troubled region with a wrong N or size, a wrong length (of buffer `wrong`, if there is such a one)
 * and a wrong status byte, each or not. The failed steps, and the step whose page is asked for, are anything. */
static void try_ranks(struct test *test, struct scene *scene, enum entry_index index, bool wrong_chip,
		      unsigned wrong, bool wrong_status)
{
	const unsigned place = (unsigned)draw_below(&test->state, region_status_len(&scene->region));
	const bool wrong_length = wrong < entries[index].buffers && has_length(index, wrong);

	scene->failed_len = 0;
	for (uint64_t failed = draw_below(&test->state, 4); failed > 0; failed--)
		scene_fail_too(scene, (uint8_t)draw_of_any_width(&test->state));
	scene_set_up(test, index, scene);
	if (wrong_chip && draw_below(&test->state, 2) == 0)
		test->call.number[0] += 1 + draw_below(&test->state, 3);
	else if (wrong_chip)
		test->call.number[1] = no_sizes[draw_below(&test->state, NO_SIZES)];
	if (wrong_length)
		test->call.len[wrong] -= 1;
	if (wrong_status)
		test->call.bytes[1][place] = 2;
	call_set_named(test, "step", draw_of_any_width(&test->state));
	call_compare(test);
	if (wrong_chip)
		expect_answer(test, REAM_RANGE, "N and the region's size are judged first");
	else if (wrong_length)
		expect_answer(test, REAM_LENGTH, "then the lengths");
	else if (wrong_status)
		expect_answer(test, REAM_RANGE, "then the status bytes");
}

/* A number, a length or both wrong, beside boot blocks that are in order or are not. */
static void try_boot_order(struct test *test)
{
	struct boots boots;

	test->trying = "all faults with all others, of boot blocks";
	for (unsigned i = 0; i < 2 * WRONGS * 4 * 3; i++) {
		const bool wrong_set = i % 2 != 0, wrong_number = i / 2 % 2 != 0, wrong_length = i / 4 % 2 != 0;
		const unsigned number = 12, buffer = i / 8 % 3;

		boots_begin(test, &boots, number, SHUFFLED);
		boots_one(test, &boots, 1);
		if (wrong_set)
			boots_wrong(test, &boots, (enum wrong)(i / 24));
		boots_pair(test, &boots, 3);
		boots_set_up(test, BOOT_MAP, &boots);
		if (wrong_number)
			test->call.number[0] += 65536;
		if (wrong_length)
			test->call.len[buffer] -= 1;
		call_compare(test);
		if (wrong_number)
			expect_answer(test, REAM_RANGE, "the number of blocks is judged first");
		else if (wrong_length)
			expect_answer(test, REAM_LENGTH, "then the lengths");
		else if (wrong_set)
			expect_answer(test, refusal(REAM_BOOT_SET, 1), "then the boot blocks");
		else
			expect_answer(test, refusal(REAM_OK, 2) | 1 << 24, "nothing is wrong");
	}
}

static void try_order(struct test *test, struct scene *scene)
{
	test->trying = "all faults with all others";
	for (unsigned shape = 0; shape < SHAPES; shape++) {
		for (unsigned trouble = 0; trouble < TROUBLES; trouble++) {
			const struct cast cast = cast_troubled(shapes[shape], trouble);

			scene_build(test, scene, &cast);
			for (unsigned i = 0; i < REGION_ENTRIES; i++) {
				const enum entry_index index = region_entries[i];

				for (unsigned wrong = 0; wrong <= entries[index].buffers; wrong++)
					for (unsigned others = 0; others < 4; others++)
						try_ranks(test, scene, index, others % 2, wrong, others / 2);
			}
			scene->failed_len = 0;
			expect_cast(test, scene, &cast);
		}
	}
}

void test_arguments(struct test *test, struct scene *scene)
{
	try_chip_examples(test, scene);
	try_chips(test);
	try_wrong_numbers(test, scene);
	try_numbers_of_blocks(test);
	try_small_numbers(test);
	try_page_lengths(test);
	try_boot_lengths(test);
	try_region_lengths(test, scene);
	try_lengths_of_other_chips(test, scene);
	try_status_bytes(test, scene);
	try_boot_order(test);
	try_order(test, scene);
}
