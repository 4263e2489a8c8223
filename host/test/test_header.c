/*
 * The header itself: its version, the sizes of buffers, entries of bitmaps, steps, boot blocks, answers, the texts of
 * refusals, and the functions for pointers that may be null, for which each such pointer is a buffer of no bytes.
 */
#include "tests.h"

#include <stdio.h>
#include <string.h>

#include "reamsickle.h"
#include "region.h"
#include "scenes.h"
#include "small_pages.h"

/* The version as text, "major.minor" or "major.minor.patch", and as a number. */
static void try_version(struct test *test)
{
	unsigned major = 0, minor = 0, patch = 0;
	const int parts = sscanf(REAM_LIBRARY_VERSION, "%u.%u.%u", &major, &minor, &patch);

	test->trying = "the library's version";
	expect(test, parts >= 2 && minor < 100 && patch < 100 &&
	       10000 * major + 100 * minor + patch == REAM_LIBRARY_VERSION_NUMBER,
	       "the version as text and as a number agree");
}

/* The sizes of the buffers for these numbers, which are P pages to a copy: 0 where they are no chip's. */
static bool sizes_right(uint64_t n, uint64_t size, unsigned pages)
{
	const bool fits = is_chip(n, size);

	return ream_region_fits(n, size) == fits && ream_table_pages(n) == pages &&
	       ream_image_size(n, size) == (fits ? size * pages * 2112 : 0) &&
	       ream_status_size(n, size) == (fits ? size * pages : 0) &&
	       ream_marks_size(n) == (pages == 0 ? 0 : 2 * n) && ream_bitmap_size(n) == (pages == 0 ? 0 : n / 4);
}

static void try_sizes_of_buffers(struct test *test)
{
	uint64_t right = 0;

	test->trying = "the header's sizes";
	for (uint64_t n = 8; n <= 32768; n += 4) {
		const unsigned pages = n <= 8192 ? 1 : n <= 16384 ? 2 : n <= 24576 ? 3 : 4;

		for (uint64_t size = 0; size < 12; size++)
			right += sizes_right(n, size, pages);
		for (unsigned i = 0; i < NO_SIZES; i++)
			right += sizes_right(n, no_sizes[i], pages);
	}
	expect(test, right == (32768 / 4 - 1) * (12 + NO_SIZES), "the sizes of every number of blocks");
	for (unsigned i = 0; i < NO_NUMBERS; i++)
		for (uint64_t size = 0; size < 12; size++)
			expect(test, sizes_right(no_numbers[i], size, 0),
			       "a number that is no number of blocks has sizes 0");
	expect(test, ream_image_size(REAM_BLOCKS_MAX, REAM_REGION_BLOCKS_MAX) == REAM_IMAGE_SIZE_MAX &&
	       ream_status_size(REAM_BLOCKS_MAX, REAM_REGION_BLOCKS_MAX) == REAM_STATUS_SIZE_MAX &&
	       ream_marks_size(REAM_BLOCKS_MAX) == REAM_MARKS_SIZE_MAX &&
	       ream_bitmap_size(REAM_BLOCKS_MAX) == REAM_BITMAP_SIZE_MAX, "the largest sizes");
	expect(test, REAM_IMAGE_SIZE_MAX == 7 * 4 * 2112 && REAM_STATUS_SIZE_MAX == 7 * 4 &&
	       REAM_MARKS_SIZE_MAX == 2 * 32768 && REAM_BITMAP_SIZE_MAX == 8192, "they are those of 32,768 blocks with a region of seven");
	expect(test, ream_region_fits(REAM_BLOCKS_MIN, REAM_REGION_BLOCKS_MIN) &&
	       !ream_region_fits(REAM_BLOCKS_MIN, REAM_REGION_BLOCKS_MIN + 1), "eight blocks allow a region of four");
}

static void try_entries_of_bitmaps(struct test *test)
{
	test->trying = "the header's entries";
	for (unsigned byte = 0; byte < 256; byte++) {
		for (unsigned block = 0; block < 4; block++) {
			for (unsigned entry = 0; entry < 4; entry++) {
				uint8_t bitmap[3] = { 0x5A, (uint8_t)byte, 0x5A };
				unsigned kept = 0;

				ream_entry_set(bitmap, 4 + block, entry);
				for (unsigned k = 0; k < 4; k++)
					kept += k != block && ream_entry_get(bitmap, 4 + k) == (byte >> 2 * k) % 4;
				expect(test, ream_entry_get(bitmap, 4 + block) == entry && kept == 3 &&
				       bitmap[0] == 0x5A && bitmap[2] == 0x5A, "one entry is set and no other");
			}
		}
	}
}

/* The kinds of step, and a step taken apart. */
static void try_steps_of_plans(struct test *test)
{
	static const uint8_t bytes[3][REAM_STEP_SIZE] = {
		{ 0, 0x7F, 0xF9, 0 }, { 1, 0x12, 0x34, 3 }, { 2, 0x00, 0x04, 0 },
	};

	test->trying = "the header's steps";
	expect(test, REAM_ERASE == 0 && REAM_WRITE == 1 && REAM_ZERO == 2, "the kinds of step");
	for (unsigned i = 0; i < 3; i++) {
		const struct ream_step step = ream_step_get(bytes[i]);

		expect(test, step.kind == i && step.block == 256u * bytes[i][1] + bytes[i][2] &&
		       step.page == bytes[i][3], "a step's kind, block and page");
	}
	expect(test, REAM_STEPS_SIZE >= REAM_STEP_SIZE * 11 && REAM_FAILED_MAX == REAM_REGION_BLOCKS_MAX - 1,
	       "room for 11 steps, and for a list of failed steps");
}

/* Paths of boot pages, lists of boot blocks, and the answer of ream_boot_map(), taken apart. */
static void try_boot_blocks(struct test *test)
{
	static const uint8_t list[6] = { 0x00, 0x07, 0x03, 0xFF, 0x01, 0x00 };

	test->trying = "the header's boot blocks";
	expect(test, REAM_SMALL_BLOCKS_MAX == 1024 && REAM_BOOT_SPARES_SIZE == 32 && REAM_BOOT_BLOCK_SIZE == 2,
	       "the most blocks, and the sizes of one");
	expect(test, ream_boot_number(6) == 1 && ream_boot_generation(6) == 2 &&
	       ream_boot_number(REAM_PATH_MAX) == 0xFFFFFF && ream_boot_generation(REAM_PATH_MAX) == 3,
	       "the boot number and the generation of a path");
	expect(test, ream_boot_block(list, 0) == 7 && ream_boot_block(list, 1) == 1023 &&
	       ream_boot_block(list, 2) == 256, "the blocks of a list");
	expect(test, ream_mapped_count(0x0201040300) == 0x0403 && ream_erased_count(0x0201040300) == 0x0201,
	       "the counts of both lists");
	expect(test, ream_refusal(0xFEDCBA0D) == REAM_BOOT_SET && ream_detail(0xFEDCBA0D) == 0xFEDCBA &&
	       ream_detail(0x0203) == REAM_LATE && ream_detail(0x0106) == REAM_FIRST_HALF, "the details of refusals");
}

/* Whether a call was answered, for every refusal beside every detail, or beside the numbers of an answered call. */
static void try_answers(struct test *test)
{
	static const uint64_t above[] = {
		0, 1, 2, 0xFF, 0x100, 0x1FF, 0xFFFFFF, (uint64_t)1 << 24, (uint64_t)1 << 31, (uint64_t)1 << 40,
		(uint64_t)1 << 55, ((uint64_t)1 << 56) - 1,
	};

	test->trying = "the header's answers";
	for (unsigned i = 0; i < sizeof(above) / sizeof(above[0]); i++)
		for (unsigned refusal = 0; refusal < 256; refusal++)
			expect(test, ream_ok(above[i] << 8 | refusal) == (refusal == 0),
			       "a call was answered exactly where its refusal is 0");
}

/* Is it the number of a refusal, or 0? The documents have 1 to 13, with 51, 52 and 53 in the place of 5. */
static bool is_known(unsigned refusal)
{
	return (refusal <= 13 && refusal != 5) || (refusal >= 51 && refusal <= 53);
}

/* Each refusal has a text of its own, and no other number has. */
static void try_texts(struct test *test)
{
	const char *unknown = ream_refusal_text(UINT32_MAX);

	test->trying = "the header's texts";
	expect(test, REAM_ZERO_FAILED == 12 && REAM_BOOT_SET == 13, "refusals 12 and 13");
	expect(test, REAM_ERASED == 51 && REAM_NOT_OURS == 52 && REAM_NOT_OURS_REPAIRED == 53, "refusals 51 to 53");
	for (unsigned refusal = 0; refusal < 300; refusal++) {
		const char *text = ream_refusal_text(refusal);

		expect(test, (strcmp(text, unknown) != 0) == is_known(refusal), "the refusals have texts");
		expect(test, ream_not_ours(refusal) == (refusal == 51 || refusal == 52 || refusal == 53),
		       "the three that say that a page is not ours");
		for (unsigned other = 0; other < refusal && is_known(refusal); other++)
			expect(test, strcmp(text, ream_refusal_text(other)) != 0, "no two have the same");
	}
}

/* ---- pointers that may be null */

/* Of the small chip's entries. */
static void try_null_in_pages(struct test *test)
{
	const struct page page = page_drawn(test);
	uint8_t data[512], code[3], spare[16], fields[11];
	uint64_t answer;
	bool refused;

	test->trying = "null pointers";
	memcpy(data, page.data, 512);
	memset(code, 0x5A, 3);
	memcpy(spare, page.spare, 16);
	memset(fields, 0x5A, 11);
	refused = ream_half_code_checked(NULL, 0, code, 3) == REAM_LENGTH &&
		  ream_half_code_checked(NULL, 256, code, 3) == REAM_LENGTH &&
		  ream_half_code_checked(data, 256, NULL, 3) == REAM_LENGTH &&
		  ream_spare_write_checked(NULL, 512, page.tag, 0, 0, spare, 16) == REAM_LENGTH &&
		  ream_spare_write_checked(data, 512, page.tag, 0, 0, NULL, 16) == REAM_LENGTH &&
		  ream_spare_read_checked(NULL, 16, fields, 11) == REAM_LENGTH &&
		  ream_spare_read_checked(spare, 16, NULL, 0) == REAM_LENGTH &&
		  ream_page_read_checked(NULL, 512, spare, 16, fields, 11) == REAM_LENGTH &&
		  ream_page_read_checked(data, 512, NULL, 16, fields, 11) == REAM_LENGTH &&
		  ream_page_read_checked(data, 512, spare, 16, NULL, 11) == REAM_LENGTH &&
		  ream_page_read_checked(NULL, 0, NULL, 0, NULL, 0) == REAM_LENGTH;
	expect(test, refused, "a null pointer is refused as a wrong length");
	expect(test, memcmp(data, page.data, 512) == 0 && memcmp(code, "\x5A\x5A\x5A", 3) == 0 &&
	       memcmp(spare, page.spare, 16) == 0 && fields[0] == 0x5A && fields[10] == 0x5A,
	       "a call refused for a null pointer changes nothing");

	answer = ream_half_code_checked(data, 256, code, 3) | ream_spare_read_checked(spare, 16, fields, 11) |
		 ream_page_read_checked(data, 512, spare, 16, fields, 11) |
		 ream_spare_write_checked(data, 512, page.tag, page.path, page.count, spare, 16);
	expect(test, answer == REAM_OK && memcmp(code, page.spare + 13, 3) == 0 &&
	       memcmp(spare, page.spare, 16) == 0 && ream_fields_get(fields).path == page.path,
	       "with no null pointer the checked functions are the entries");
}

/* Of the map of boot blocks. With no block its buffers have no bytes, so that all of them may be null. */
static void try_null_in_boot_map(struct test *test)
{
	uint8_t spares[2][2][16], mapped[4] = { 0x5A, 0x5A, 0x5A, 0x5A }, erased[4] = { 0x5A, 0x5A, 0x5A, 0x5A };
	const uint8_t *lent = spares[0][0];
	struct page page = page_filled(test, 0);
	bool refused;

	test->trying = "null pointers in mapping boot blocks";
	page.tag = REAM_TAG_BOOT;
	for (unsigned i = 0; i < 4; i++) {
		page.path = i / 2;
		page_write(test, &page);
		memcpy(spares[i / 2][i % 2], page.spare, 16);
	}
	refused = ream_boot_map_checked(2, NULL, 64, mapped, 4, erased, 4) == REAM_LENGTH &&
		  ream_boot_map_checked(2, lent, 64, NULL, 4, erased, 4) == REAM_LENGTH &&
		  ream_boot_map_checked(2, lent, 64, mapped, 4, NULL, 4) == REAM_LENGTH &&
		  ream_boot_map_checked(1, NULL, 0, NULL, 0, NULL, 0) == REAM_LENGTH &&
		  ream_boot_map_checked(0, NULL, 0, mapped, 4, NULL, 0) == REAM_LENGTH;
	expect(test, refused, "a null pointer is refused as a wrong length");
	expect(test, ream_boot_map_checked(1025, NULL, 0, NULL, 0, NULL, 0) == REAM_RANGE,
	       "a wrong number of blocks is refused before a null pointer");
	expect(test, memcmp(mapped, "\x5A\x5A\x5A\x5A", 4) == 0 && memcmp(erased, mapped, 4) == 0,
	       "a call refused for a null pointer changes nothing");
	expect(test, ream_boot_map_checked(0, NULL, 64, NULL, 4, NULL, 4) == REAM_OK, "no block needs no buffer");
	expect(test, ream_boot_map_checked(2, lent, 64, mapped, 4, erased, 4) == (1 << 8 | 1 << 24) &&
	       memcmp(mapped, "\x00\x00\x5A\x5A", 4) == 0 && memcmp(erased, "\x00\x01\x5A\x5A", 4) == 0,
	       "with no null pointer the checked function is the entry");
}

/* The large chip's entries that plan and give pages, with all lengths as named, on a chip of 12 blocks, 6 of them its
 * region, and a list of one failed step. */
static uint64_t update_plan(const uint8_t *image, const uint8_t *status, const uint8_t *wanted, const uint8_t *failed,
			    uint8_t *steps)
{
	return ream_update_plan_checked(12, 6, image, 12672, status, 6, wanted, 3, failed, 1, steps, 64);
}

static uint64_t recovery_plan(const uint8_t *image, const uint8_t *status, const uint8_t *failed, uint8_t *steps)
{
	return ream_recovery_plan_checked(12, 6, image, 12672, status, 6, failed, 1, steps, 64);
}

static uint64_t update_page(const uint8_t *image, const uint8_t *status, const uint8_t *wanted, const uint8_t *failed,
			    uint64_t step, uint8_t *page)
{
	return ream_update_page_checked(12, 6, image, 12672, status, 6, wanted, 3, failed, 1, step, page, 2112);
}

static uint64_t recovery_page(const uint8_t *image, const uint8_t *status, const uint8_t *failed, uint64_t step,
			      uint8_t *page)
{
	return ream_recovery_page_checked(12, 6, image, 12672, status, 6, failed, 1, step, page, 2112);
}

/* Of those that read and make a first bitmap. */
static void try_null_in_regions(struct test *test, struct scene *scene)
{
	const struct cast cast = cast_settled((struct chip){ 12, 6 }, 5, 0, 200);
	const uint8_t *image = scene->region.image, *status = scene->region.status, *marks = scene->marks;
	uint8_t bitmap[3] = { 0x5A, 0x5A, 0x5A };
	bool refused;

	test->trying = "null pointers";
	scene_build(test, scene, &cast);
	refused = ream_first_bitmap_checked(12, 6, NULL, 24, bitmap, 3) == REAM_LENGTH &&
		  ream_first_bitmap_checked(12, 6, marks, 24, NULL, 3) == REAM_LENGTH &&
		  ream_table_read_checked(12, 6, NULL, 12672, status, 6, bitmap, 3) == REAM_LENGTH &&
		  ream_table_read_checked(12, 6, image, 12672, NULL, 6, bitmap, 3) == REAM_LENGTH &&
		  ream_table_read_checked(12, 6, image, 12672, status, 6, NULL, 3) == REAM_LENGTH;
	expect(test, refused, "a null pointer is refused as a wrong length");
	refused = ream_first_bitmap_checked(4, 4, NULL, 0, NULL, 0) == REAM_RANGE &&
		  ream_first_bitmap_checked(12, 7, NULL, 0, NULL, 0) == REAM_RANGE &&
		  ream_table_read_checked(10, 4, NULL, 0, NULL, 0, NULL, 0) == REAM_RANGE &&
		  ream_table_read_checked(8, 5, NULL, 0, NULL, 0, NULL, 0) == REAM_RANGE;
	expect(test, refused, "a wrong number of blocks, or size of the region, is refused before a null pointer");
	expect(test, memcmp(bitmap, "\x5A\x5A\x5A", 3) == 0, "a call refused for a null pointer changes nothing");

	expect(test, ream_table_read_checked(12, 6, image, 12672, status, 6, bitmap, 3) ==
	       (200 << 8 | 11 << 16 | (uint64_t)6 << 32) && memcmp(bitmap, scene->table[PRIMARY], 3) == 0 &&
	       ream_first_bitmap_checked(12, 6, marks, 24, bitmap, 3) == REAM_OK &&
	       ream_entry_get(bitmap, 7) == (marks[14] == 0 || marks[15] == 0 ? REAM_ENTRY_FACTORY : REAM_ENTRY_GOOD),
	       "with no null pointer the checked functions are the entries");
}

/* Of those that plan. A null pointer in place of the list says that no step failed. */
static void try_null_in_planning(struct test *test, struct scene *scene)
{
	static const uint8_t failed[1] = { 4 };
	struct cast cast = cast_settled((struct chip){ 12, 6 }, 5, 0, 200);
	const uint8_t *image = scene->region.image, *status = scene->region.status, *wanted = scene->wanted;
	uint8_t steps[64];
	bool refused;

	test->trying = "null pointers in planning";
	scene_build_changing(test, scene, &cast);
	memset(steps, 0x5A, 64);
	refused = update_plan(NULL, status, wanted, failed, steps) == REAM_LENGTH &&
		  update_plan(image, NULL, wanted, failed, steps) == REAM_LENGTH &&
		  update_plan(image, status, NULL, failed, steps) == REAM_LENGTH &&
		  update_plan(image, status, wanted, failed, NULL) == REAM_LENGTH &&
		  recovery_plan(NULL, status, failed, steps) == REAM_LENGTH &&
		  recovery_plan(image, NULL, failed, steps) == REAM_LENGTH &&
		  recovery_plan(image, status, failed, NULL) == REAM_LENGTH;
	expect(test, refused, "a null pointer is refused as a wrong length");
	refused = ream_update_plan_checked(32772, 4, NULL, 0, NULL, 0, NULL, 0, NULL, 0, NULL, 0) == REAM_RANGE &&
		  ream_update_plan_checked(12, 3, NULL, 0, NULL, 0, NULL, 0, NULL, 0, NULL, 0) == REAM_RANGE &&
		  ream_recovery_plan_checked(0, 4, NULL, 0, NULL, 0, NULL, 0, NULL, 0) == REAM_RANGE &&
		  ream_recovery_plan_checked(32768, 8, NULL, 0, NULL, 0, NULL, 0, NULL, 0) == REAM_RANGE;
	expect(test, refused, "a wrong number of blocks, or size of the region, is refused before a null pointer");
	expect(test, update_plan(image, status, wanted, failed, steps) == REAM_RANGE &&
	       recovery_plan(image, status, failed, steps) == REAM_RANGE, "4 steps, and none, have no step 4");
	expect(test, steps[0] == 0x5A && steps[63] == 0x5A, "a refused call changes nothing");

	expect(test, update_plan(image, status, wanted, NULL, steps) == (201 << 8 | 4 << 16) &&
	       steps[0] == REAM_ERASE && steps[2] == 11 && steps[16] == 0x5A, "with no list an update's first plan");
	expect(test, ream_update_plan_checked(12, 6, image, 12672, status, 6, wanted, 3, NULL, 0, steps, 64) ==
	       (201 << 8 | 4 << 16), "with no list and no length too");
	expect(test, recovery_plan(image, status, NULL, steps) == 200 << 8, "with no list a recovery's first plan");
	cast.version[PRIMARY]++;
	scene_rebuild(test, scene, &cast);
	expect(test, ream_recovery_plan_checked(12, 6, image, 12672, status, 6, NULL, 0, steps, 64) ==
	       (201 << 8 | 2 << 16), "with no list and no length too");
}

/* With no null pointer but for the list the pages are given. */
static void expect_pages_checked(struct test *test, struct scene *scene, struct cast *cast)
{
	static const uint8_t failed[1] = { 0 };
	const uint8_t *image = scene->region.image, *status = scene->region.status, *wanted = scene->wanted;
	uint8_t page[2112], asked[2112];

	region_lay_out(&scene->region, 0, MIRROR, 201, scene->wanted, asked);
	expect(test, update_page(image, status, wanted, NULL, 3, page) == REAM_OK &&
	       memcmp(page, asked, sizeof(page)) == 0, "with no list the page of an update's first plan");
	expect(test, update_page(image, status, wanted, failed, 3, page) == REAM_RANGE &&
	       update_page(image, status, wanted, failed, 4, page) == REAM_OK &&
	       memcmp(page, asked, sizeof(page)) == 0, "with a list that of the next");
	cast->version[PRIMARY] = 201;
	scene_rebuild(test, scene, cast);
	region_lay_out(&scene->region, 0, MIRROR, 201, scene->table[PRIMARY], asked);
	expect(test, recovery_page(image, status, NULL, 1, page) == REAM_OK &&
	       memcmp(page, asked, sizeof(page)) == 0, "with no list the page of a recovery's first plan");
	expect(test, recovery_page(image, status, failed, 1, page) == REAM_RANGE &&
	       recovery_page(image, status, failed, 2, page) == REAM_OK &&
	       memcmp(page, asked, sizeof(page)) == 0, "with a list that of the next");
}

/* Of those that give pages. */
static void try_null_in_asking(struct test *test, struct scene *scene)
{
	static const uint8_t failed[1] = { 0 };
	struct cast cast = cast_settled((struct chip){ 12, 6 }, 1, 5, 200);
	const uint8_t *image = scene->region.image, *status = scene->region.status, *wanted = scene->wanted;
	uint8_t page[2112], before[2112];
	bool refused;

	test->trying = "null pointers in asking for pages";
	memset(scene->table, 0xFF, sizeof(scene->table));
	memcpy(scene->wanted, "\x27\xFF\xFF", 3);
	scene_rebuild(test, scene, &cast);
	memset(page, 0x5A, sizeof(page));
	memset(before, 0x5A, sizeof(before));
	refused = update_page(NULL, status, wanted, failed, 1, page) == REAM_LENGTH &&
		  update_page(image, NULL, wanted, failed, 1, page) == REAM_LENGTH &&
		  update_page(image, status, NULL, failed, 1, page) == REAM_LENGTH &&
		  update_page(image, status, wanted, failed, 1, NULL) == REAM_LENGTH &&
		  recovery_page(NULL, status, failed, 1, page) == REAM_LENGTH &&
		  recovery_page(image, NULL, failed, 1, page) == REAM_LENGTH &&
		  recovery_page(image, status, failed, 1, NULL) == REAM_LENGTH;
	expect(test, refused, "a null pointer is refused as a wrong length");
	refused = ream_update_page_checked(9, 4, NULL, 0, NULL, 0, NULL, 0, NULL, 0, 1, NULL, 0) == REAM_RANGE &&
		  ream_update_page_checked(12, 7, NULL, 0, NULL, 0, NULL, 0, NULL, 0, 1, NULL, 0) == REAM_RANGE &&
		  ream_recovery_page_checked(9, 4, NULL, 0, NULL, 0, NULL, 0, 1, NULL, 0) == REAM_RANGE &&
		  ream_recovery_page_checked(12, 7, NULL, 0, NULL, 0, NULL, 0, 1, NULL, 0) == REAM_RANGE;
	expect(test, refused, "a wrong number of blocks, or size of the region, is refused before a null pointer");
	expect(test, memcmp(page, before, sizeof(page)) == 0, "a call refused for a null pointer changes nothing");
	expect_pages_checked(test, scene, &cast);
}

/* Of the one that gives a page of any table. */
static void try_null_in_table_page(struct test *test, struct scene *scene)
{
	const uint8_t bitmap[3] = { 0x27, 0xFF, 0x1B };
	uint8_t page[2112], before[2112], asked[2112];
	bool refused;

	test->trying = "null pointers in asking for a page of any table";
	memset(page, 0x5A, sizeof(page));
	memset(before, 0x5A, sizeof(before));
	refused = ream_table_page_checked(12, 6, NULL, 3, REAM_PRIMARY, 200, 0, page, 2112) == REAM_LENGTH &&
		  ream_table_page_checked(12, 6, bitmap, 3, REAM_PRIMARY, 200, 0, NULL, 2112) == REAM_LENGTH &&
		  ream_table_page_checked(12, 6, NULL, 0, REAM_PRIMARY, 200, 0, NULL, 0) == REAM_LENGTH &&
		  ream_table_page_checked(12, 6, NULL, 3, 3, 256, 1, page, 2112) == REAM_LENGTH;
	expect(test, refused, "a null pointer is refused as a wrong length");
	refused = ream_table_page_checked(9, 4, NULL, 0, REAM_PRIMARY, 200, 0, NULL, 0) == REAM_RANGE &&
		  ream_table_page_checked(12, 7, NULL, 0, REAM_PRIMARY, 200, 0, NULL, 0) == REAM_RANGE;
	expect(test, refused, "a wrong number of blocks, or size of the region, is refused before a null pointer");
	expect(test, memcmp(page, before, sizeof(page)) == 0, "a call refused for a null pointer changes nothing");

	expect(test, REAM_PRIMARY == 1 && REAM_MIRROR == 2, "the kinds of copy");
	region_begin(&scene->region, 12, 6);
	for (unsigned kind = 0; kind < KINDS; kind++) {
		region_lay_out(&scene->region, 0, (enum kind)kind, 200, bitmap, asked);
		expect(test, ream_table_page_checked(12, 6, bitmap, 3, 1 + kind, 200, 0, page, 2112) == REAM_OK &&
		       memcmp(page, asked, sizeof(page)) == 0,
		       "with no null pointer the checked function is the entry");
	}
}

void test_header(struct test *test, struct scene *scene)
{
	try_version(test);
	try_sizes_of_buffers(test);
	try_entries_of_bitmaps(test);
	try_steps_of_plans(test);
	try_boot_blocks(test);
	try_answers(test);
	try_texts(test);
	try_null_in_pages(test);
	try_null_in_boot_map(test);
	try_null_in_regions(test, scene);
	try_null_in_planning(test, scene);
	try_null_in_asking(test, scene);
	try_null_in_table_page(test, scene);
}
