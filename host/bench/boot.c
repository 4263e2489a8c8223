/* The map of the boot blocks, timed beside the reading of their spares one by one. */
#include "bench.h"

#include <stdio.h>
#include <stdlib.h>
#include <string.h>

#include "draw.h"
#include "reamsickle.h"

/* In which order the boot numbers stand in the blocks. */
enum order { RISING, FALLING, DRAWN };

/* What the blocks of a chip are. */
static const struct {
	const char *inputs;
	uint8_t tag;
	enum order order;
	unsigned each;		/* blocks of a boot number: 1, or an older and a newer */
	bool worn;		/* is a bit of each path word flipped? */
} cases[] = {
	{ "1,024 numbers, rising", REAM_TAG_BOOT, RISING, 1, false },
	{ "1,024 numbers, falling", REAM_TAG_BOOT, FALLING, 1, false },
	{ "1,024 numbers, drawn order", REAM_TAG_BOOT, DRAWN, 1, false },
	{ "the same, path bits flipped", REAM_TAG_BOOT, DRAWN, 1, true },
	{ "512 pairs, rising", REAM_TAG_BOOT, RISING, 2, false },
	{ "512 pairs, falling", REAM_TAG_BOOT, FALLING, 2, false },
	{ "512 pairs, drawn order", REAM_TAG_BOOT, DRAWN, 2, false },
	{ "no boot block, data blocks", REAM_TAG_DATA, RISING, 1, false },
};

enum { CASES = sizeof(cases) / sizeof(cases[0]) };

/* ---- what a round is lent */

static void lend_spares(struct bench *bench)
{
	memcpy(bench->spares, bench->written, sizeof(bench->spares));
}

/* ---- a round of mapping, and one of reading */

static unsigned round_boot_map(struct bench *bench, const struct implementation *by)
{
	unsigned refusals = 0;

	for (unsigned i = 0; i < SMALL_CHIPS; i++)
		refusals |= ream_refusal(by->boot_map(SMALL_BLOCKS, bench->spares[i][0], sizeof(bench->spares[i]),
						      bench->mapped, sizeof(bench->mapped),
						      bench->erased, sizeof(bench->erased)));
	return refusals;
}

static unsigned round_spares(struct bench *bench, const struct implementation *by)
{
	unsigned refusals = 0;

	for (unsigned i = 0; i < SMALL_CHIPS; i++)
		for (unsigned k = 0; k < 2 * SMALL_BLOCKS; k++)
			refusals |= ream_refusal(by->spare_read(bench->spares[i][k], 16, bench->fields, 11));
	return refusals;
}

static const struct trial mapping = { "ream_boot_map", "boot blocks", 0, lend_spares, round_boot_map };
static const struct trial reading = { "ream_spare_read", "spares of boot blocks", 0, lend_spares, round_spares };

/* ---- preparing */

/* The blocks in the order in which boot numbers are laid out. */
static void order_blocks(uint64_t *state, unsigned *block, enum order order)
{
	for (unsigned i = 0; i < SMALL_BLOCKS; i++) {
		const unsigned k = order == DRAWN ? (unsigned)draw_below(state, i + 1) : i;

		block[i] = block[k];
		block[k] = order == FALLING ? SMALL_BLOCKS - 1 - i : i;
	}
}

/* The spares of one chip. The first of two blocks of a number is the older. */
static void prepare_chip(uint64_t *state, uint8_t (*spares)[16], unsigned which)
{
	static const uint8_t data[512];
	unsigned block[SMALL_BLOCKS] = { 0 };
	unsigned generation = 0;

	order_blocks(state, block, cases[which].order);
	for (unsigned i = 0; i < SMALL_BLOCKS; i++) {
		uint8_t (*spare)[16] = spares + 2 * block[i];
		uint64_t answer;

		generation = i % cases[which].each == 0 ? (unsigned)draw_below(state, 4) : (generation + 1) % 4;
		answer = ream_spare_write(data, sizeof(data), cases[which].tag,
					  4 * (i / cases[which].each) + generation,
					  draw_below(state, REAM_COUNT_MAX + 1), spare[0], 16);
		if (!ream_ok(answer)) {
			printf("bench: ream_spare_write refused a boot block\n");
			exit(EXIT_FAILURE);
		}
		memcpy(spare[1], spare[0], 16);
		for (unsigned k = 0; k < 2 && cases[which].worn; k++) {
			const uint64_t bit = draw_below(state, 8);

			spare[k][draw_below(state, 3)] ^= (uint8_t)(1 << bit);
		}
	}
}

/* Prints a case's row. Mapping and reading take turns in every round, so that they stand beside each other. */
static void run_case(struct bench *bench, unsigned which)
{
	double library[ROUNDS], reference[ROUNDS], spares[ROUNDS];
	double our_median, their_median, read_median;
	uint64_t state = SEED;

	for (unsigned i = 0; i < SMALL_CHIPS; i++)
		prepare_chip(&state, bench->written[i], which);
	for (unsigned i = 0; i < ROUNDS; i++) {
		library[i] = time_library(bench, &mapping, SMALL_CHIPS, 1);
		spares[i] = time_library(bench, &reading, SMALL_CHIPS, 1);
		reference[i] = time_reference(bench, &mapping, SMALL_CHIPS, 1);
	}
	our_median = median(library);
	their_median = median(reference);
	read_median = median(spares);
	printf("  %-28s %10.1f %12.1f %8.4f %12.1f %8.4f\n", cases[which].inputs, our_median, their_median,
	       our_median / their_median, read_median, our_median / read_median);
	fflush(stdout);
}

void bench_boots(struct bench *bench)
{
	printf("\nream_boot_map of %d blocks, beside the reference, and beside ream_spare_read of all their spares\n",
	       SMALL_BLOCKS);
	printf("  %-28s %10s %12s %8s %12s %8s\n", "inputs", "library ns", "reference ns", "ratio", "reading ns",
	       "ratio");
	for (unsigned i = 0; i < CASES; i++)
		run_case(bench, i);
}
