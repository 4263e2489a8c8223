/*
 * Pages of the small chip as they were written, their bits, and the calls on them that the trials of the small
 * chip's entries share.
 */
#ifndef SMALL_PAGES_H
#define SMALL_PAGES_H

#include <stdint.h>

#include "calls.h"

enum {
	DATA_BITS = 8 * 512,
	PAGE_BITS = DATA_BITS + 8 * 16,
	HALF_DATA_BITS = 8 * 256,
	HALF_CODE_BITS = 22,
	HALF_BITS = HALF_DATA_BITS + HALF_CODE_BITS,
};

/* The seven tags. */
enum { TAGS = 7 };

extern const uint8_t tags[TAGS];

/* A page as it was written. */
struct page {
	uint8_t data[512];
	uint8_t spare[16];
	uint8_t tag;
	uint32_t path;
	uint32_t count;
};

/* A refused call's answer. */
uint64_t refusal(unsigned number, unsigned detail);

/* ---- calls with every length as named */

uint64_t half_code(struct test *test, const uint8_t *half);
uint64_t spare_write(struct test *test, const uint8_t *data, uint64_t tag, uint64_t path, uint64_t count);
uint64_t spare_read(struct test *test, const uint8_t *spare);
uint64_t page_read(struct test *test, const struct page *page);

/* Sets up a call of any entry with the data, the spare and the fields of a page; `inputs` is a page. */
void page_call(struct test *test, enum entry_index index, const void *inputs);

/* The last read was answered: with this status byte and number of repairs, otherwise as written. */
void expect_fields(struct test *test, const struct page *written, uint8_t status, unsigned repairs);

void expect_data(struct test *test, const struct page *written);

/* ---- pages */

/* Writes the spare of a page whose data and fields are set. */
void page_write(struct test *test, struct page *page);

/* A page with fields drawn and every data byte the same. */
struct page page_filled(struct test *test, uint8_t byte);

/* A page with fields and data drawn. */
struct page page_drawn(struct test *test);

/* Gives a spare this magic, 56 hex where it was written, and any count. */
void spare_set_magic(struct test *test, uint8_t *spare, uint8_t magic);

/* ---- places. A page's bits are counted from bit 0 of data byte 0 to bit 7 of spare byte 15. */

void flip(struct page *page, unsigned place);

/* What a bit belongs to. NO_PART: the status byte, and the bits that are ignored on reading. */
enum part { FIRST_HALF, SECOND_HALF, TAG_BYTE, PATH_WORD, COUNT_WORD, NO_PART };

enum { PARTS = NO_PART };

enum part part_of(unsigned place);

/* The place of bit i of a half (1 or 2): first its data bits, then the 22 bits of its code. */
unsigned half_place(unsigned half, unsigned i);

/* Some place of a part. */
unsigned place_drawn(struct test *test, enum part part);

#endif
