/* The small chip's entries, timed. */
#include "bench.h"

#include <stdio.h>
#include <string.h>

#include "draw.h"
#include "reamsickle.h"
#include "reference.h"

/* ---- what a round is lent */

static void lend_clean(struct bench *bench)
{
	memcpy(bench->data, bench->clean, sizeof(bench->data));
}

static void lend_flipped(struct bench *bench)
{
	memcpy(bench->data, bench->flipped, sizeof(bench->data));
}

/* ---- a round of each entry */

static unsigned round_half_code(struct bench *bench, const struct implementation *by)
{
	unsigned refusals = 0;

	for (unsigned i = 0; i < PAGES; i++)
		refusals |= ream_refusal(by->half_code(bench->data[i], 256, bench->code, 3));
	return refusals;
}

static unsigned round_spare_write(struct bench *bench, const struct implementation *by)
{
	unsigned refusals = 0;

	for (unsigned i = 0; i < PAGES; i++)
		refusals |= ream_refusal(by->spare_write(bench->data[i], 512, REAM_TAG_DATA, 31 * i, 17 * i,
							 bench->made, 16));
	return refusals;
}

static unsigned read_spares(struct bench *bench, const struct implementation *by, uint8_t (*spare)[16])
{
	unsigned refusals = 0;

	for (unsigned i = 0; i < PAGES; i++)
		refusals |= ream_refusal(by->spare_read(spare[i], 16, bench->fields, 11));
	return refusals;
}

static unsigned round_spare_read(struct bench *bench, const struct implementation *by)
{
	return read_spares(bench, by, bench->spare);
}

static unsigned round_spare_read_worn(struct bench *bench, const struct implementation *by)
{
	return read_spares(bench, by, bench->worn);
}

/* Spares that are refused with this number. */
static unsigned refuse_spares(struct bench *bench, const struct implementation *by, unsigned number)
{
	uint8_t (*spare)[16] = bench->not_ours[number - REAM_ERASED];
	unsigned others = 0;

	for (unsigned i = 0; i < PAGES; i++)
		others |= ream_refusal(by->spare_read(spare[i], 16, bench->fields, 11)) ^ number;
	return others;
}

static unsigned round_spare_erased(struct bench *bench, const struct implementation *by)
{
	return refuse_spares(bench, by, REAM_ERASED);
}

static unsigned round_spare_not_ours(struct bench *bench, const struct implementation *by)
{
	return refuse_spares(bench, by, REAM_NOT_OURS);
}

static unsigned round_spare_not_ours_repaired(struct bench *bench, const struct implementation *by)
{
	return refuse_spares(bench, by, REAM_NOT_OURS_REPAIRED);
}

static unsigned round_page_read(struct bench *bench, const struct implementation *by)
{
	unsigned refusals = 0;

	for (unsigned i = 0; i < PAGES; i++)
		refusals |= ream_refusal(by->page_read(bench->data[i], 512, bench->spare[i], 16,
						       bench->fields, 11));
	return refusals;
}

/* ---- the trials */

static const struct trial small_trials[] = {
	{ "ream_half_code", "halves", 0, lend_clean, round_half_code },
	{ "ream_spare_write", "pages", 0, lend_clean, round_spare_write },
	{ "ream_spare_read", "spares as written", 0, lend_clean, round_spare_read },
	{ "ream_spare_read", "spares, one bit of the path word flipped", 0, lend_clean, round_spare_read_worn },
	{ "ream_spare_read", "spares, erased: 51", 0, lend_clean, round_spare_erased },
	{ "ream_spare_read", "spares, another magic: 52", 0, lend_clean, round_spare_not_ours },
	{ "ream_spare_read", "spares, another magic, one bit flipped: 53", 0, lend_clean, round_spare_not_ours_repaired },
	{ "ream_page_read", "pages as written", 0, lend_clean, round_page_read },
	{ "ream_page_read", "pages, one data bit flipped", 0, lend_flipped, round_page_read },
};

enum { TRIALS = sizeof(small_trials) / sizeof(small_trials[0]) };

/* The spares as written, with another magic: their count word is made as that of a path. */
static void prepare_not_ours(struct bench *bench, uint64_t *state)
{
	memset(bench->not_ours, 0xFF, sizeof(bench->not_ours));
	for (unsigned i = 0; i < PAGES; i++) {
		uint8_t *clean = bench->not_ours[1][i], *repaired = bench->not_ours[2][i];
		const uint64_t path = (uint64_t)0x65 << 18 | draw_below(state, 1 << 18);
		uint8_t word[16];

		ref_spare_write(bench->clean[i], 512, REAM_TAG_DATA, path, 0, word, 16);
		memcpy(clean, bench->spare[i], 16);
		memcpy(clean + 6, word, 2);
		memcpy(clean + 11, word + 2, 2);
		memcpy(repaired, clean, 16);
		repaired[7] ^= (uint8_t)(1 << draw_below(state, 8));
	}
}

void prepare_pages(struct bench *bench)
{
	uint64_t state = SEED;

	draw_bytes(&state, bench->clean[0], sizeof(bench->clean));
	memcpy(bench->flipped, bench->clean, sizeof(bench->flipped));
	for (unsigned i = 0; i < PAGES; i++) {
		const unsigned place = (unsigned)draw_below(&state, 8 * 512);
		const uint64_t count = draw_below(&state, REAM_COUNT_MAX + 1);
		const uint64_t path = draw_below(&state, REAM_PATH_MAX + 1);

		bench->flipped[i][place / 8] ^= (uint8_t)(1 << place % 8);
		ref_spare_write(bench->clean[i], 512, REAM_TAG_DATA, path, count, bench->spare[i], 16);
	}
	memcpy(bench->worn, bench->spare, sizeof(bench->worn));
	for (unsigned i = 0; i < PAGES; i++) {
		const uint64_t bit = draw_below(&state, 8);

		bench->worn[i][draw_below(&state, 3)] ^= (uint8_t)(1 << bit);
	}
	prepare_not_ours(bench, &state);
	yard_table_make(&bench->table);
}

void bench_small(struct bench *bench)
{
	printf("\nsmall chip: data %d bytes, half %d, spare %d\n", REAM_SMALL_DATA_SIZE, REAM_HALF_SIZE,
	       REAM_SMALL_SPARE_SIZE);
	print_heads();
	for (unsigned i = 0; i < TRIALS; i++)
		run(bench, &small_trials[i], PAGES, 1);
}
