/* Pages of the small chip, and calls on them. */
#include "small_pages.h"

#include <string.h>

#include "draw.h"
#include "reamsickle.h"

const uint8_t tags[TAGS] = {
	REAM_TAG_FREE, REAM_TAG_LOG_COPYING, REAM_TAG_LOG, REAM_TAG_DATA_COPYING,
	REAM_TAG_DATA, REAM_TAG_BOOT_COPYING, REAM_TAG_BOOT,
};

uint64_t refusal(unsigned number, unsigned detail)
{
	return number + 256 * (uint64_t)detail;
}

/* ---- calls with every length as named */

uint64_t half_code(struct test *test, const uint8_t *half)
{
	call_begin(test, HALF_CODE);
	call_lend(test, 0, half, 256);
	return call_compare(test);
}

uint64_t spare_write(struct test *test, const uint8_t *data, uint64_t tag, uint64_t path, uint64_t count)
{
	call_begin(test, SPARE_WRITE);
	call_lend(test, 0, data, 512);
	test->call.number[0] = tag;
	test->call.number[1] = path;
	test->call.number[2] = count;
	return call_compare(test);
}

uint64_t spare_read(struct test *test, const uint8_t *spare)
{
	call_begin(test, SPARE_READ);
	call_lend(test, 0, spare, 16);
	return call_compare(test);
}

uint64_t page_read(struct test *test, const struct page *page)
{
	call_begin(test, PAGE_READ);
	call_lend(test, 0, page->data, 512);
	call_lend(test, 1, page->spare, 16);
	return call_compare(test);
}

void page_call(struct test *test, enum entry_index index, const void *inputs)
{
	const struct page *page = inputs;

	call_begin(test, index);
	call_lend_named(test, "half", page->data, 256);
	call_lend_named(test, "data", page->data, 512);
	call_lend_named(test, "spare", page->spare, 16);
	call_set_named(test, "tag", page->tag);
	call_set_named(test, "path", page->path);
	call_set_named(test, "count", page->count);
}

/* The fields that the last spare or page read gave. */
static struct ream_fields fields_left(struct test *test)
{
	return ream_fields_get(call_left(test, test->call.index == PAGE_READ ? 2 : 1));
}

void expect_fields(struct test *test, const struct page *written, uint8_t status, unsigned repairs)
{
	const struct ream_fields fields = fields_left(test);

	expect_answer(test, REAM_OK, "a read that must be answered");
	expect(test, fields.status == status, "the status byte");
	expect(test, fields.tag == written->tag, "the tag as written");
	expect(test, fields.path == written->path, "the path as written");
	expect(test, fields.count == written->count, "the count as written");
	expect(test, fields.repairs == repairs, "the number of repairs");
}

void expect_data(struct test *test, const struct page *written)
{
	expect(test, memcmp(call_left(test, 0), written->data, 512) == 0, "the data as written");
}

/* ---- pages */

void page_write(struct test *test, struct page *page)
{
	spare_write(test, page->data, page->tag, page->path, page->count);
	expect_answer(test, REAM_OK, "a write that must be answered");
	memcpy(page->spare, call_left(test, 1), 16);
}

struct page page_filled(struct test *test, uint8_t byte)
{
	struct page page;

	memset(page.data, byte, 512);
	page.tag = tags[draw_below(&test->state, TAGS)];
	page.path = (uint32_t)draw_below(&test->state, REAM_PATH_MAX + 1);
	page.count = (uint32_t)draw_below(&test->state, REAM_COUNT_MAX + 1);
	page_write(test, &page);
	return page;
}

struct page page_drawn(struct test *test)
{
	struct page page = page_filled(test, 0);

	draw_bytes(&test->state, page.data, 512);
	page_write(test, &page);
	return page;
}

/* The word that has magic and count is made as that of a path. */
void spare_set_magic(struct test *test, uint8_t *spare, uint8_t magic)
{
	static const uint8_t data[512];
	const uint64_t path = (uint64_t)magic << 18 | draw_below(&test->state, 1 << 18);
	uint8_t word[16];

	expect(test, ream_ok(ream_spare_write(data, 512, REAM_TAG_BOOT, path, 0, word, 16)),
	       "a word with any magic is made");
	memcpy(spare + 6, word, 2);
	memcpy(spare + 11, word + 2, 2);
}

/* ---- places */

void flip(struct page *page, unsigned place)
{
	if (place < DATA_BITS)
		page->data[place / 8] ^= (uint8_t)(1 << place % 8);
	else
		page->spare[(place - DATA_BITS) / 8] ^= (uint8_t)(1 << place % 8);
}

enum part part_of(unsigned place)
{
	static const enum part spare_part[16] = {
		PATH_WORD, PATH_WORD, PATH_WORD, PATH_WORD, TAG_BYTE, NO_PART, COUNT_WORD, COUNT_WORD,
		SECOND_HALF, SECOND_HALF, SECOND_HALF, COUNT_WORD, COUNT_WORD, FIRST_HALF, FIRST_HALF, FIRST_HALF,
	};
	unsigned byte, number;

	if (place < DATA_BITS)
		return place < HALF_DATA_BITS ? FIRST_HALF : SECOND_HALF;
	byte = (place - DATA_BITS) / 8;
	number = place % 8;
	if ((byte == 3 || byte == 12) && number == 5)
		return NO_PART;
	if ((byte == 10 || byte == 15) && number < 2)
		return NO_PART;
	return spare_part[byte];
}

unsigned half_place(unsigned half, unsigned i)
{
	const unsigned code_byte = half == 1 ? 13 : 8;

	if (i < HALF_DATA_BITS)
		return (half - 1) * HALF_DATA_BITS + i;
	i -= HALF_DATA_BITS;
	return DATA_BITS + 8 * code_byte + (i < 16 ? i : i + 2);
}

unsigned place_drawn(struct test *test, enum part part)
{
	unsigned place;

	if (part == FIRST_HALF || part == SECOND_HALF)
		return half_place(part == FIRST_HALF ? 1 : 2, (unsigned)draw_below(&test->state, HALF_BITS));
	do {
		place = DATA_BITS + (unsigned)draw_below(&test->state, PAGE_BITS - DATA_BITS);
	} while (part_of(place) != part);
	return place;
}
