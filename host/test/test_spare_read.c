/* Reading a spare: ream_spare_read. What a page read makes of the same spares is tried along. */
#include "tests.h"

#include <string.h>

#include "draw.h"
#include "reamsickle.h"
#include "small_pages.h"

/* ---- document 01's examples by number */

static void try_tag_and_status_examples(struct test *test)
{
	static const uint8_t late[3] = { 0xFC, 0xF0, 0x03 };
	static const uint8_t factory[2] = { 0x01, 0x00 };
	struct page page = page_filled(test, 0);

	test->trying = "document 01's tags";
	page.spare[4] = 0x07;
	page.tag = REAM_TAG_LOG;
	page_read(test, &page);
	expect_fields(test, &page, 0xFF, 1);
	page.spare[4] = 0x00;
	page.tag = REAM_TAG_BOOT;
	page_read(test, &page);
	expect_fields(test, &page, 0xFF, 1);
	page.spare[4] = 0x55;
	page_read(test, &page);
	expect_answer(test, REAM_TAG, "tag 55 is refused");

	test->trying = "document 01's status bytes";
	page = page_filled(test, 0);
	page.spare[5] = 0xFE;
	page_read(test, &page);
	expect_fields(test, &page, 0xFE, 0);
	for (unsigned i = 0; i < 3; i++) {
		page.spare[5] = late[i];
		page_read(test, &page);
		expect_answer(test, refusal(REAM_BAD_BLOCK, REAM_LATE), "a late bad block");
	}
	for (unsigned i = 0; i < 2; i++) {
		page.spare[5] = factory[i];
		page_read(test, &page);
		expect_answer(test, refusal(REAM_BAD_BLOCK, REAM_FACTORY), "a factory bad block");
	}

}

/* ---- spares that are not ours */

/* A page whose spare is refused with this number alone, by itself and with the page's data. */
static void expect_not_ours(struct test *test, const struct page *page, unsigned number)
{
	spare_read(test, page->spare);
	expect_answer(test, number, "why a spare is not ours");
	page_read(test, page);
	expect_answer(test, number, "why a page is not ours");
}

static struct page page_erased(void)
{
	struct page page;

	memset(&page, 0xFF, sizeof(page));
	return page;
}

/* A page with an erased spare, whatever its data is. */
static void try_erased(struct test *test)
{
	struct page page = page_erased();

	test->trying = "an erased page";
	expect_not_ours(test, &page, REAM_ERASED);
	test->trying = "an erased spare beside data that is not FF";
	for (unsigned place = 0; place < DATA_BITS; place++) {
		if (left_out(test))
			continue;
		page = page_erased();
		flip(&page, place);
		expect_not_ours(test, &page, REAM_ERASED);
	}
	for (unsigned i = 0; i < 200; i++) {
		draw_bytes(&test->state, page.data, 512);
		expect_not_ours(test, &page, REAM_ERASED);
	}
}

/* All FF but one bit of the spare: the count word is repaired where it is one of that word's used bits, check bits
 * included, and nothing else is. All FF but two bits is compared alone. */
static void try_nearly_erased(struct test *test)
{
	unsigned repaired = 0;

	test->trying = "all FF but one bit of the spare";
	for (unsigned place = DATA_BITS; place < PAGE_BITS; place++) {
		const bool in_count_word = part_of(place) == COUNT_WORD;
		struct page page = page_erased();

		flip(&page, place);
		expect_not_ours(test, &page, in_count_word ? REAM_NOT_OURS_REPAIRED : REAM_NOT_OURS);
		repaired += in_count_word;
	}
	expect(test, repaired == 31, "31 bits of the count word count");

	test->trying = "all FF but two bits of the spare";
	for (unsigned place = DATA_BITS; place < PAGE_BITS; place++) {
		for (unsigned other = DATA_BITS; other < place; other++) {
			struct page page = page_erased();

			if (left_out(test))
				continue;
			flip(&page, place);
			flip(&page, other);
			spare_read(test, page.spare);
			expect(test, test->answer != REAM_OK && test->answer != REAM_ERASED,
			       "it is neither read nor erased");
		}
	}
}

/* Pages with every other magic in the count word, as it is written and with one flipped bit. */
static void try_wrong_magics(struct test *test)
{
	test->trying = "all wrong magics";
	for (unsigned magic = 0; magic < 256; magic++) {
		struct page page = page_drawn(test);

		if (magic == 0x56)
			continue;
		spare_set_magic(test, page.spare, (uint8_t)magic);
		expect_not_ours(test, &page, REAM_NOT_OURS);
		for (unsigned place = DATA_BITS; place < PAGE_BITS; place++) {
			struct page flipped = page;
			const enum part part = part_of(place);

			if ((part != COUNT_WORD && place != DATA_BITS + 8 * 12 + 5) || left_out(test))
				continue;
			flip(&flipped, place);
			expect_not_ours(test, &flipped, part == COUNT_WORD ? REAM_NOT_OURS_REPAIRED : REAM_NOT_OURS);
		}
	}
}

/* ---- other spares */

/* All status bytes with all tag bytes. Of 256 status bytes 9 are good (at most one bit 0), 9 factory (at
 * most one bit 1) and the rest late; of 256 tag bytes 63 are within one bit of a tag. */
static void try_status_and_tag_bytes(struct test *test)
{
	const struct page page = page_drawn(test);
	unsigned answered = 0, factory = 0, late = 0, no_tag = 0;
	uint8_t spare[16];

	test->trying = "all status bytes with all tag bytes";
	memcpy(spare, page.spare, 16);
	for (unsigned pair = 0; pair < 256 * 256; pair++) {
		spare[5] = (uint8_t)(pair / 256);
		spare[4] = (uint8_t)(pair % 256);
		spare_read(test, spare);
		answered += test->answer == REAM_OK;
		factory += test->answer == refusal(REAM_BAD_BLOCK, REAM_FACTORY);
		late += test->answer == refusal(REAM_BAD_BLOCK, REAM_LATE);
		no_tag += test->answer == refusal(REAM_TAG, 0);
	}
	expect(test, answered == 9 * 63 && no_tag == 9 * 193, "63 tag bytes are answered and 193 refused");
	expect(test, factory == 9 * 256 && late == 238 * 256, "9 status bytes are factory and 238 late");

	test->trying = "all status bytes of a page, and all tag bytes";
	for (unsigned byte = 0; byte < 256; byte++) {
		struct page damaged = page;

		damaged.spare[5] = (uint8_t)byte;
		page_read(test, &damaged);
		damaged = page;
		damaged.spare[4] = (uint8_t)byte;
		page_read(test, &damaged);
	}
}

/* Up to two flipped bits of each protected word. Two come out wrong, the same way in library and reference. */
static void try_words(struct test *test)
{
	static const unsigned bytes[2][4] = { { 0, 1, 2, 3 }, { 6, 7, 11, 12 } };

	test->trying = "pairs of flipped bits in a protected word";
	for (unsigned round = 0; round < 20; round++) {
		const struct page page = page_filled(test, 0);

		for (unsigned word = 0; word < 2; word++) {
			for (unsigned pair = 0; pair < 32 * 32; pair++) {
				const unsigned i = pair / 32, k = pair % 32;
				uint8_t spare[16];

				if (left_out(test))
					continue;
				memcpy(spare, page.spare, 16);
				spare[bytes[word][i / 8]] ^= (uint8_t)(1 << i % 8);
				spare[bytes[word][k / 8]] ^= (uint8_t)(1 << k % 8);
				spare_read(test, spare);
			}
		}
	}
}

/* Drawn spares. Most would be refused by their status alone, so some bytes are made good by turns. */
static void try_drawn_spares(struct test *test)
{
	const struct page page = page_drawn(test);

	test->trying = "drawn spares";
	for (unsigned i = 0; i < 60000; i++) {
		uint8_t spare[16];

		if (left_out(test))
			continue;
		draw_bytes(&test->state, spare, 16);
		if (i % 8 != 0)
			spare[5] = (uint8_t)(0xFF ^ (i % 16 < 8 ? 0 : 1 << i % 7));
		if (i % 4 != 0)
			spare[4] = tags[i % TAGS] ^ (uint8_t)(i % 3 ? 1 << i % 8 : 0);
		if (i % 2 != 0)
			spare[6] = 0x56;
		spare_read(test, spare);
		if (i % 100 == 0) {
			struct page drawn = page;

			memcpy(drawn.spare, spare, 16);
			page_read(test, &drawn);
		}
	}
}

void test_spare_read(struct test *test)
{
	try_tag_and_status_examples(test);
	try_erased(test);
	try_nearly_erased(test);
	try_wrong_magics(test);
	try_status_and_tag_bytes(test);
	try_words(test);
	try_drawn_spares(test);
}
