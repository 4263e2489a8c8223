/*
 * Reading a page: ream_page_read. The order of the refusals, and demand 2: what is written reads back, one flipped
 * bit gives the data as written, two in a half are refused with that half.
 */
#include "tests.h"

#include <string.h>

#include "draw.h"
#include "reamsickle.h"
#include "small_pages.h"

/* ---- the order of the refusals */

enum { ORDER_STATUS = 4, ORDER_TAGS = 3, ORDER_WORDS = 4, ORDER_HALVES = 3 };

/* A page with a chosen fault of each kind. */
struct faults {
	unsigned status;	/* good, one 0 bit, late, factory */
	unsigned tag;		/* as written, one bit wrong, no tag */
	unsigned magic;		/* as written, one bit wrong, another, another with one bit wrong */
	unsigned first;		/* flipped bits in the first half */
	unsigned second;	/* flipped bits in the second half */
};

static struct page page_with_faults(struct test *test, const struct page *written, const struct faults *faults)
{
	static const uint8_t status[ORDER_STATUS] = { 0xFF, 0xEF, 0x9F, 0x20 };
	struct page page = *written;

	page.spare[5] = status[faults->status];
	if (faults->tag == 1)
		page.spare[4] ^= 0x10;
	if (faults->tag == 2)
		page.spare[4] = 0x55;
	if (faults->magic >= 2)
		spare_set_magic(test, page.spare, 0xFF);
	if (faults->magic % 2 == 1)
		page.spare[6] ^= 0x10;
	for (unsigned half = 1; half <= 2; half++) {
		const unsigned flips = half == 1 ? faults->first : faults->second;
		const unsigned one = (unsigned)draw_below(&test->state, HALF_BITS - 1);

		for (unsigned i = 0; i < flips; i++)
			flip(&page, half_place(half, one + i));
	}
	return page;
}

/* The refusal of a spare with these faults, by document 01's order. */
static uint64_t spare_refusal(const struct faults *faults)
{
	if (faults->status == 2)
		return refusal(REAM_BAD_BLOCK, REAM_LATE);
	if (faults->status == 3)
		return refusal(REAM_BAD_BLOCK, REAM_FACTORY);
	if (faults->tag == 2)
		return refusal(REAM_TAG, 0);
	if (faults->magic == 2)
		return refusal(REAM_NOT_OURS, 0);
	if (faults->magic == 3)
		return refusal(REAM_NOT_OURS_REPAIRED, 0);
	return REAM_OK;
}

/* The refusal of a page with these faults. */
static uint64_t page_refusal(const struct faults *faults)
{
	if (spare_refusal(faults) != REAM_OK)
		return spare_refusal(faults);
	if (faults->first == 2)
		return refusal(REAM_UNREPAIRABLE, REAM_FIRST_HALF);
	if (faults->second == 2)
		return refusal(REAM_UNREPAIRABLE, REAM_SECOND_HALF);
	return REAM_OK;
}

static void try_faults(struct test *test, const struct page *written, const struct faults *faults)
{
	const struct page page = page_with_faults(test, written, faults);
	const unsigned in_spare = (faults->tag == 1) + (faults->magic == 1);
	const unsigned in_page = in_spare + (faults->first == 1) + (faults->second == 1);

	spare_read(test, page.spare);
	expect_answer(test, spare_refusal(faults), "the order of refusals");
	if (spare_refusal(faults) == REAM_OK)
		expect_fields(test, written, page.spare[5], in_spare);

	page_read(test, &page);
	expect_answer(test, page_refusal(faults), "the order of refusals");
	if (page_refusal(faults) == REAM_OK) {
		expect_fields(test, written, page.spare[5], in_page);
		expect_data(test, written);
	}

	page_call(test, PAGE_READ, &page);
	test->call.len[2] = 10;
	call_compare(test);
	expect_answer(test, REAM_LENGTH, "a wrong length is refused before all else");
}

static void try_order(struct test *test)
{
	const unsigned all = ORDER_STATUS * ORDER_TAGS * ORDER_WORDS * ORDER_HALVES * ORDER_HALVES;

	test->trying = "all faults with all others";
	for (unsigned i = 0; i < all; i++) {
		const struct page written = page_drawn(test);
		const struct faults faults = {
			i % ORDER_STATUS,
			i / ORDER_STATUS % ORDER_TAGS,
			i / (ORDER_STATUS * ORDER_TAGS) % ORDER_WORDS,
			i / (ORDER_STATUS * ORDER_TAGS * ORDER_WORDS) % ORDER_HALVES,
			i / (ORDER_STATUS * ORDER_TAGS * ORDER_WORDS * ORDER_HALVES),
		};

		try_faults(test, &written, &faults);
	}
}

/* ---- demand 2 */

/* What stands where in a written spare: the data bits of a word are its bits 31-6. */
static void expect_layout(struct test *test, const struct page *page)
{
	const uint8_t *spare = page->spare;
	const uint8_t count_word[4] = { spare[6], spare[7], spare[11], spare[12] };

	expect(test, spare[4] == page->tag && spare[5] == 0xFF, "tag and status in bytes 4 and 5");
	expect(test, ream_big_endian(spare) >> 6 == page->path, "the path in bytes 0-3");
	expect(test, ream_big_endian(count_word) >> 6 == ((uint32_t)0x56 << 18 | page->count),
	       "magic and count in bytes 6, 7, 11 and 12");
	half_code(test, page->data);
	expect(test, memcmp(call_left(test, 1), spare + 13, 3) == 0, "the first half's code in bytes 13-15");
	half_code(test, page->data + 256);
	expect(test, memcmp(call_left(test, 1), spare + 8, 3) == 0, "the second half's code in bytes 8-10");
}

static void try_round_trips(struct test *test)
{
	test->trying = "reading what was written";
	for (unsigned i = 0; i < 1500; i++) {
		const struct page page = page_drawn(test);

		expect_layout(test, &page);
		spare_read(test, page.spare);
		expect_fields(test, &page, 0xFF, 0);
		page_read(test, &page);
		expect_fields(test, &page, 0xFF, 0);
		expect_data(test, &page);
	}
}

/* One flipped bit anywhere in a page: all is as written, and the repair is counted where there is one. */
static void try_single_flips(struct test *test, const struct page *page)
{
	test->trying = "every single flipped bit of a page";
	for (unsigned place = 0; place < PAGE_BITS; place++) {
		const enum part part = part_of(place);
		struct page damaged = *page;

		if (left_out(test))
			continue;
		flip(&damaged, place);
		page_read(test, &damaged);
		expect_fields(test, page, damaged.spare[5], part != NO_PART);
		expect_data(test, page);
		if (place >= DATA_BITS) {
			spare_read(test, damaged.spare);
			expect_fields(test, page, damaged.spare[5],
				      part == TAG_BYTE || part == PATH_WORD || part == COUNT_WORD);
		}
	}
}

/* Two different bits of a half flipped, and up to one bit of the other: refused, with the half. */
static void try_double_flip(struct test *test, const struct page *page, unsigned half, unsigned i, unsigned k)
{
	const unsigned other = 3 - half;
	struct page damaged = *page;

	if (left_out(test))
		return;
	flip(&damaged, half_place(half, i));
	flip(&damaged, half_place(half, k));
	if ((i + k) % 2 == 0)
		flip(&damaged, half_place(other, (unsigned)draw_below(&test->state, HALF_BITS)));
	page_read(test, &damaged);
	expect_answer(test, refusal(REAM_UNREPAIRABLE, half), "two flipped bits in a half are refused, with the half");
}

static void try_double_flips(struct test *test, const struct page *page)
{
	test->trying = "two flipped bits in a half";
	for (unsigned half = 1; half <= 2; half++) {
		for (unsigned i = HALF_DATA_BITS; i < HALF_BITS; i++)
			for (unsigned k = HALF_DATA_BITS; k < i; k++)
				try_double_flip(test, page, half, i, k);
		for (unsigned n = 0; n < 800; n++) {
			const unsigned i = (unsigned)draw_below(&test->state, HALF_DATA_BITS);
			const unsigned step = 1 + (unsigned)draw_below(&test->state, HALF_DATA_BITS - 1);
			const unsigned code = HALF_DATA_BITS + n % HALF_CODE_BITS;

			try_double_flip(test, page, half, i, (i + step) % HALF_DATA_BITS);
			try_double_flip(test, page, half, i, code);
		}
		/* neighbours: bits of one byte, and the same bit of the next byte */
		for (unsigned i = 0; i + 8 < HALF_DATA_BITS; i += 5) {
			try_double_flip(test, page, half, i, i + 1);
			try_double_flip(test, page, half, i, i + 8);
		}
	}
}

/* Two flipped bits in both halves: the first is named. */
static void try_both_halves_lost(struct test *test, const struct page *page)
{
	test->trying = "two flipped bits in each half";
	for (unsigned n = 0; n < 500; n++) {
		struct page damaged = *page;

		for (unsigned half = 1; half <= 2; half++) {
			const unsigned i = (unsigned)draw_below(&test->state, HALF_BITS);
			const unsigned step = 1 + (unsigned)draw_below(&test->state, HALF_BITS - 1);

			flip(&damaged, half_place(half, i));
			flip(&damaged, half_place(half, (i + step) % HALF_BITS));
		}
		page_read(test, &damaged);
		expect_answer(test, refusal(REAM_UNREPAIRABLE, REAM_FIRST_HALF), "the first half is named");
	}
}

/* One flipped bit in any of the five parts that are repaired, by themselves and together. */
static void try_flips_in_parts(struct test *test, const struct page *page)
{
	test->trying = "one flipped bit in each of several parts";
	for (unsigned n = 0; n < 100; n++) {
		for (unsigned parts = 0; parts < 1 << PARTS; parts++) {
			struct page damaged = *page;
			unsigned repairs = 0;

			for (unsigned part = 0; part < PARTS; part++) {
				if (parts >> part & 1) {
					flip(&damaged, place_drawn(test, (enum part)part));
					repairs++;
				}
			}
			page_read(test, &damaged);
			expect_fields(test, page, 0xFF, repairs);
			expect_data(test, page);
		}
	}
}

/* Three and more flips: nothing is claimed but that library and reference agree. */
static void try_many_flips(struct test *test, const struct page *page)
{
	test->trying = "three and more flipped bits";
	for (unsigned n = 0; n < 3000; n++) {
		struct page damaged = *page;

		for (unsigned i = 0; i < 3 + n % 4; i++) {
			if (n % 2 == 0)
				flip(&damaged, half_place(1 + n / 2 % 2, (unsigned)draw_below(&test->state, HALF_BITS)));
			else
				flip(&damaged, (unsigned)draw_below(&test->state, PAGE_BITS));
		}
		page_read(test, &damaged);
	}
}

static void try_flips(struct test *test)
{
	struct page pages[3];

	pages[0] = page_drawn(test);
	pages[1] = page_filled(test, 0x00);
	pages[2] = page_filled(test, 0xFF);
	for (unsigned i = 0; i < sizeof(pages) / sizeof(pages[0]); i++) {
		try_single_flips(test, &pages[i]);
		try_double_flips(test, &pages[i]);
		try_both_halves_lost(test, &pages[i]);
	}
	try_flips_in_parts(test, &pages[0]);
	try_many_flips(test, &pages[0]);
}

void test_page_read(struct test *test)
{
	try_order(test);
	try_round_trips(test);
	try_flips(test);
}
