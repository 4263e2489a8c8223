/*
 * Writing a spare: ream_spare_write. Document 01's examples of words, and numbers that are in their range or are
 * not: refusal 2 comes exactly where one is not.
 */
#include "tests.h"

#include <string.h>

#include "draw.h"
#include "reamsickle.h"
#include "small_pages.h"

/* ---- document 01's examples by number */

/* The word that a path is written as, and reads back from with no repair. */
static void expect_path_word(struct test *test, uint32_t path, const uint8_t word[4])
{
	struct page page = page_filled(test, 0);

	page.path = path;
	page_write(test, &page);
	expect(test, memcmp(page.spare, word, 4) == 0, "the path word of document 01's example");
	page_read(test, &page);
	expect_fields(test, &page, 0xFF, 0);
}

/* Reads a page whose path word is set by hand. */
static void expect_path_read(struct test *test, const uint8_t word[4], uint32_t path, unsigned repairs)
{
	struct page page = page_filled(test, 0);

	memcpy(page.spare, word, 4);
	page.path = path;
	spare_read(test, page.spare);
	expect_fields(test, &page, 0xFF, repairs);
	page_read(test, &page);
	expect_fields(test, &page, 0xFF, repairs);
}

static void try_path_examples(struct test *test)
{
	static const uint8_t zero[4] = { 0x00, 0x00, 0x00, 0x20 };
	static const uint8_t one[4] = { 0x00, 0x00, 0x00, 0x63 };
	static const uint8_t boot_1_generation_2[4] = { 0x00, 0x00, 0x01, 0xA3 };
	static const uint8_t data_bit_wrong[4] = { 0x00, 0x00, 0x00, 0x60 };
	static const uint8_t check_bit_wrong[4] = { 0x00, 0x00, 0x00, 0x21 };
	static const uint8_t all_ones[4] = { 0xFF, 0xFF, 0xFF, 0xFF };

	test->trying = "document 01's path words";
	expect_path_word(test, 0, zero);
	expect_path_word(test, 1, one);
	expect_path_word(test, 4 * 1 + 2, boot_1_generation_2);
	expect_path_read(test, data_bit_wrong, 0, 1);
	expect_path_read(test, check_bit_wrong, 0, 1);
	expect_path_read(test, all_ones, REAM_PATH_MAX, 0);
}

static void try_count_examples(struct test *test)
{
	struct page page = page_filled(test, 0);

	test->trying = "document 01's counts";
	page.count = 1;
	page_write(test, &page);
	expect(test, page.spare[6] == 0x56 && page.spare[7] == 0x00 && page.spare[11] == 0x00 &&
	       page.spare[12] == 0x62, "the count word of document 01's example");

	/* 262,143 can't be written, but is read: data bit 0 of the largest count, and its two check bits */
	page.count = REAM_COUNT_MAX;
	page_write(test, &page);
	page.spare[12] ^= 0x43;
	page.count = REAM_COUNT_MAX + 1;
	page_read(test, &page);
	expect_fields(test, &page, 0xFF, 0);
}

/* ---- numbers to write */

static bool is_tag(uint64_t number)
{
	for (unsigned i = 0; i < TAGS; i++)
		if (number == tags[i])
			return true;
	return false;
}

/* Writes; refusal 2 comes exactly where a number is outside its range. */
static void expect_written(struct test *test, const uint8_t *data, uint64_t tag, uint64_t path, uint64_t count)
{
	const bool in_range = is_tag(tag) && path < 67108864 && count <= 262142;

	spare_write(test, data, tag, path, count);
	expect_answer(test, in_range ? REAM_OK : REAM_RANGE, "refusal 2 comes exactly with a number out of range");
}

static void try_tags_to_write(struct test *test)
{
	uint8_t data[512] = { 0 };

	test->trying = "tags to write";
	for (uint64_t tag = 0; tag < 1024; tag++)
		expect_written(test, data, tag, 5, 7);
	for (unsigned i = 0; i < TAGS; i++) {
		for (unsigned k = 8; k < 64; k++)
			expect_written(test, data, tags[i] + ((uint64_t)1 << k), 5, 7);
		expect_written(test, data, ~(uint64_t)tags[i], 5, 7);
		expect_written(test, data, (uint64_t)0 - tags[i], 5, 7);
	}
}

static void try_paths_and_counts_to_write(struct test *test)
{
	static const uint64_t edges[] = {
		0, 1, 2, 3, 262141, 262142, 262143, 262144, 262145, 67108862, 67108863, 67108864, 67108865,
		UINT32_MAX, (uint64_t)UINT32_MAX + 1, (uint64_t)UINT32_MAX + 2, INT64_MAX,
		(uint64_t)INT64_MAX + 1, (uint64_t)INT64_MAX + 2, UINT64_MAX - 1, UINT64_MAX,
	};
	enum { EDGES = sizeof(edges) / sizeof(edges[0]) };
	uint8_t data[512] = { 0 };

	test->trying = "paths and counts at the edges of their ranges";
	for (unsigned i = 0; i < EDGES; i++) {
		for (unsigned k = 0; k < EDGES; k++) {
			expect_written(test, data, REAM_TAG_LOG, edges[i], edges[k]);
			expect_written(test, data, 0x07, edges[i], edges[k]);
		}
	}

	test->trying = "single bits of paths and counts";
	for (unsigned k = 0; k < 64; k++) {
		expect_written(test, data, REAM_TAG_BOOT, (uint64_t)1 << k, 0);
		expect_written(test, data, REAM_TAG_BOOT, 0, (uint64_t)1 << k);
		expect_written(test, data, REAM_TAG_BOOT, 6 + ((uint64_t)1 << k), 0);
		expect_written(test, data, REAM_TAG_BOOT, 0, 6 + ((uint64_t)1 << k));
	}

	test->trying = "drawn numbers to write";
	for (unsigned i = 0; i < 20000; i++) {
		const uint64_t tag = i % 3 ? tags[draw_below(&test->state, TAGS)] : draw(&test->state);
		const uint64_t path = draw_of_any_width(&test->state);
		const uint64_t count = draw_of_any_width(&test->state);

		if (left_out(test))
			continue;
		expect_written(test, data, tag, path, count);
	}
}

void test_spare_write(struct test *test)
{
	try_path_examples(test);
	try_count_examples(test);
	try_tags_to_write(test);
	try_paths_and_counts_to_write(test);
}
