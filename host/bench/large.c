/* The large chip's entries, timed. */
#include "bench.h"

#include <inttypes.h>
#include <stdio.h>
#include <string.h>

#include "draw.h"
#include "reamsickle.h"

enum {
	FEWEST_CALLS = 1024,	/* that a timing makes, where a call is short */
	SHORT_CALL = 1024,	/* a call on a chip of fewer blocks is */
	REGION_SIZES = MOST_REGION_BLOCKS - FEWEST_REGION_BLOCKS + 1,
	SIZE_TIMES = 16,	/* how often a timing by the size of the region goes through all inputs */
};

/* ---- what a round is lent */

/* Of each region as many bytes as its calls are told. */
static void lend_regions(struct bench *bench, enum state state)
{
	for (unsigned i = 0; i < REGIONS; i++) {
		const struct region *from = &bench->prepared[state][i];
		struct region *region = &bench->region[i];

		region->n = from->n;
		region->size = from->size;
		region->pages = from->pages;
		memcpy(region->image, from->image, region_image_len(from));
		memcpy(region->status, from->status, region_status_len(from));
	}
}

static void lend_settled(struct bench *bench)
{
	lend_regions(bench, SETTLED);
}

static void lend_behind(struct bench *bench)
{
	lend_regions(bench, BEHIND);
}

static void lend_alone(struct bench *bench)
{
	lend_regions(bench, ALONE);
}

static void lend_differing(struct bench *bench)
{
	lend_regions(bench, DIFFERING);
}

static void lend_crowded(struct bench *bench)
{
	lend_regions(bench, CROWDED);
}

static void lend_crowded_alone(struct bench *bench)
{
	lend_regions(bench, CROWDED_ALONE);
}

static void lend_marks(struct bench *bench)
{
	memcpy(bench->marks, bench->factory, sizeof(bench->marks));
}

static void lend_tables(struct bench *bench)
{
	memcpy(bench->tables, bench->same, sizeof(bench->tables));
}

/* ---- a round of each entry. A region stands in a call as its image and its status. */

/* The steps that fail, as many as a trial asks for: the first page of the plan's first copy, then the same of the
 * plan that it becomes. */
static const uint8_t failed[2] = { 1, 2 };

/* The step that writes a page of the plan's first copy. Once a step has failed, a zero step comes before them. */
static uint64_t step_of(const struct bench *bench, unsigned page)
{
	return (bench->failed == 0 ? 1 : 2) + page;
}

#define LENT(region) \
	(region)->n, (region)->size, (region)->image, region_image_len(region), (region)->status, \
	region_status_len(region)

static unsigned round_first_bitmap(struct bench *bench, const struct implementation *by)
{
	unsigned refusals = 0;

	for (unsigned i = 0; i < REGIONS; i++)
		refusals |= ream_refusal(by->first_bitmap(bench->n, bench->size, bench->marks[i],
							  ream_marks_size(bench->n), bench->bitmap, bench->bitmap_len));
	return refusals;
}

static unsigned round_table_read(struct bench *bench, const struct implementation *by)
{
	unsigned refusals = 0;

	for (unsigned i = 0; i < REGIONS; i++)
		refusals |= ream_refusal(by->table_read(LENT(&bench->region[i]),
							bench->bitmap, bench->bitmap_len));
	return refusals;
}

static unsigned plan_updates(struct bench *bench, const struct implementation *by,
			     uint8_t (*wanted)[MOST_BITMAP])
{
	unsigned refusals = 0;

	for (unsigned i = 0; i < REGIONS; i++)
		refusals |= ream_refusal(by->update_plan(LENT(&bench->region[i]), wanted[i], bench->bitmap_len,
							 failed, bench->failed, bench->steps, 64));
	return refusals;
}

static unsigned round_update_plan(struct bench *bench, const struct implementation *by)
{
	return plan_updates(bench, by, bench->wanted);
}

static unsigned round_empty_plan(struct bench *bench, const struct implementation *by)
{
	return plan_updates(bench, by, bench->same);
}

static unsigned round_recovery_plan(struct bench *bench, const struct implementation *by)
{
	unsigned refusals = 0;

	for (unsigned i = 0; i < REGIONS; i++)
		refusals |= ream_refusal(by->recovery_plan(LENT(&bench->region[i]), failed, bench->failed,
							   bench->steps, 64));
	return refusals;
}

/* The pages of the plan's first copy, in turn. */
static unsigned round_update_page(struct bench *bench, const struct implementation *by)
{
	unsigned refusals = 0;

	for (unsigned i = 0; i < REGIONS; i++) {
		const struct region *region = &bench->region[i];

		refusals |= ream_refusal(by->update_page(LENT(region), bench->wanted[i], bench->bitmap_len,
							 failed, bench->failed, step_of(bench, i % region->pages),
							 bench->page, PAGE_BYTES));
	}
	return refusals;
}

static unsigned round_recovery_page(struct bench *bench, const struct implementation *by)
{
	unsigned refusals = 0;

	for (unsigned i = 0; i < REGIONS; i++) {
		const struct region *region = &bench->region[i];

		refusals |= ream_refusal(by->recovery_page(LENT(region), failed, bench->failed,
							   step_of(bench, i % region->pages), bench->page,
							   PAGE_BYTES));
	}
	return refusals;
}

#undef LENT

/* The pages of primaries, in turn. */
static unsigned round_table_page(struct bench *bench, const struct implementation *by)
{
	const unsigned pages = ream_table_pages(bench->n);
	unsigned refusals = 0;

	for (unsigned i = 0; i < REGIONS; i++)
		refusals |= ream_refusal(by->table_page(bench->n, bench->size, bench->tables[i], bench->bitmap_len,
							REAM_PRIMARY, i, i % pages, bench->page, PAGE_BYTES));
	return refusals;
}

/* ---- the trials */

static const struct trial large_trials[] = {
	{ "ream_first_bitmap", "marks", 0, lend_marks, round_first_bitmap },
	{ "ream_table_read", "settled pairs", 0, lend_settled, round_table_read },
	{ "ream_update_plan", "settled pairs, one entry changed", 0, lend_settled, round_update_plan },
	{ "ream_update_plan", "the same after one failed step", 1, lend_settled, round_update_plan },
	{ "ream_update_plan", "the same after two failed steps", 2, lend_settled, round_update_plan },
	{ "ream_update_plan", "settled pairs, nothing changed", 0, lend_settled, round_empty_plan },
	{ "ream_update_page", "settled pairs, one entry changed", 0, lend_settled, round_update_page },
	{ "ream_update_page", "the same after one failed step", 1, lend_settled, round_update_page },
	{ "ream_update_page", "the same after two failed steps", 2, lend_settled, round_update_page },
	{ "ream_recovery_plan", "settled pairs: nothing to do", 0, lend_settled, round_recovery_plan },
	{ "ream_recovery_plan", "mirror one version behind", 0, lend_behind, round_recovery_plan },
	{ "ream_recovery_plan", "the same after one failed step", 1, lend_behind, round_recovery_plan },
	{ "ream_recovery_plan", "the same after two failed steps", 2, lend_behind, round_recovery_plan },
	{ "ream_recovery_plan", "primary alone", 0, lend_alone, round_recovery_plan },
	{ "ream_recovery_plan", "the same after one failed step", 1, lend_alone, round_recovery_plan },
	{ "ream_recovery_plan", "the same after two failed steps", 2, lend_alone, round_recovery_plan },
	{ "ream_recovery_plan", "versions equal, bitmaps different", 0, lend_differing, round_recovery_plan },
	{ "ream_recovery_plan", "the same after one failed step", 1, lend_differing, round_recovery_plan },
	{ "ream_recovery_plan", "the same after two failed steps", 2, lend_differing, round_recovery_plan },
	{ "ream_recovery_page", "mirror one version behind", 0, lend_behind, round_recovery_page },
	{ "ream_recovery_page", "the same after one failed step", 1, lend_behind, round_recovery_page },
	{ "ream_recovery_page", "the same after two failed steps", 2, lend_behind, round_recovery_page },
	{ "ream_recovery_page", "primary alone", 0, lend_alone, round_recovery_page },
	{ "ream_recovery_page", "the same after one failed step", 1, lend_alone, round_recovery_page },
	{ "ream_recovery_page", "the same after two failed steps", 2, lend_alone, round_recovery_page },
	{ "ream_recovery_page", "versions equal, bitmaps different", 0, lend_differing, round_recovery_page },
	{ "ream_recovery_page", "the same after one failed step", 1, lend_differing, round_recovery_page },
	{ "ream_recovery_page", "the same after two failed steps", 2, lend_differing, round_recovery_page },
	{ "ream_table_page", "tables", 0, lend_tables, round_table_page },
};

enum { TRIALS = sizeof(large_trials) / sizeof(large_trials[0]) };

/* Those that are timed by the size of the region. */
static const struct trial size_trials[] = {
	{ "ream_table_read", "settled pairs, others blank", 0, lend_settled, round_table_read },
	{ "ream_table_read", "settled pairs, others half copies", 0, lend_crowded, round_table_read },
	{ "ream_update_plan", "settled pairs, others half copies", 0, lend_crowded, round_update_plan },
	{ "ream_recovery_plan", "primary alone, others blank", 0, lend_alone, round_recovery_plan },
	{ "ream_recovery_plan", "primary alone, others half copies", 0, lend_crowded_alone, round_recovery_plan },
	{ "ream_recovery_plan", "the same after two failed steps", 2, lend_crowded_alone, round_recovery_plan },
};

enum { SIZE_TRIALS = sizeof(size_trials) / sizeof(size_trials[0]) };

/* ---- preparing */

/* A copy with its last page unreadable in every block: as much as there can be to look at where none is good. */
static void crowd(struct region *region, uint8_t version, const uint8_t *table)
{
	for (unsigned block = 0; block < region->size; block++) {
		region_copy(region, block, MIRROR, version, table);
		*region_status(region, block, region->pages - 1) = 1;
	}
}

/* The region of one state, with the table in it, and in an older copy the table before. */
static void prepare_region(struct region *region, enum state state, const unsigned *block, uint8_t version,
			   const uint8_t *table, const uint8_t *before)
{
	region_begin(region, region->n, region->size);
	if (state == CROWDED || state == CROWDED_ALONE)
		crowd(region, version, table);
	region_copy(region, block[PRIMARY], PRIMARY, version, table);
	if (state == SETTLED || state == CROWDED)
		region_copy(region, block[MIRROR], MIRROR, version, table);
	else if (state == BEHIND)
		region_copy(region, block[MIRROR], MIRROR, (uint8_t)(version - 1), before);
	else if (state == DIFFERING)
		region_copy(region, block[MIRROR], MIRROR, version, before);
}

/* Draws regions of `size` blocks on a chip with n blocks, each copy in a block of its own, with some blocks of the
 * chip that are not good; and for each a good block that is to be marked late, and the factory's marks of a chip. */
static void prepare_regions(struct bench *bench, uint64_t n, unsigned size, uint64_t state)
{
	bench->n = n;
	bench->size = size;
	bench->bitmap_len = ream_bitmap_size(n);
	for (unsigned i = 0; i < REGIONS; i++) {
		const unsigned primary = (unsigned)draw_below(&state, size);
		const unsigned mirror = (primary + 1 + (unsigned)draw_below(&state, size - 1)) % size;
		const unsigned block[KINDS] = { primary, mirror };
		const uint8_t version = (uint8_t)draw(&state);
		const uint64_t changed = draw_below(&state, n);

		memset(bench->same[i], 0xFF, bench->bitmap_len);
		memset(bench->factory[i], 0xFF, ream_marks_size(n));
		for (uint64_t k = 0; k < n / 160; k++) {
			const uint64_t bad = draw_below(&state, n);

			ream_entry_set(bench->same[i], bad, (unsigned)draw_below(&state, 3));
			bench->factory[i][2 * bad + draw_below(&state, 2)] = 0;
		}
		ream_entry_set(bench->same[i], changed, REAM_ENTRY_GOOD);
		memcpy(bench->wanted[i], bench->same[i], bench->bitmap_len);
		ream_entry_set(bench->wanted[i], changed, REAM_ENTRY_LATE);
		for (unsigned k = 0; k < STATES; k++) {
			bench->prepared[k][i].n = n;
			bench->prepared[k][i].size = size;
			prepare_region(&bench->prepared[k][i], (enum state)k, block, version, bench->same[i],
				       bench->wanted[i]);
		}
	}
}

void bench_large(struct bench *bench, uint64_t n)
{
	const unsigned size = FEWEST_REGION_BLOCKS;

	prepare_regions(bench, n, size, SEED);
	printf("\nlarge chip, N = %" PRIu64 ", region of %u blocks: image %zu bytes, status %zu, bitmap %zu\n", n,
	       size, ream_image_size(n, size), ream_status_size(n, size), ream_bitmap_size(n));
	print_heads();
	for (unsigned i = 0; i < TRIALS; i++)
		run(bench, &large_trials[i], REGIONS, n < SHORT_CALL ? FEWEST_CALLS / REGIONS : 1);
}

/* The times of a trial, by the size of the region. */
struct by_size {
	double time[REGION_SIZES][ROUNDS];
};

/* Prints a trial's row: its time for each size, and how much a block more adds. */
static void print_size_row(const struct trial *trial, struct by_size *by_size)
{
	double time[REGION_SIZES];

	printf("  %-20s", trial->entry);
	for (unsigned i = 0; i < REGION_SIZES; i++) {
		time[i] = median(by_size->time[i]);
		printf("%10.1f", time[i]);
	}
	printf("%10.1f   %s\n", (time[REGION_SIZES - 1] - time[0]) / (REGION_SIZES - 1), trial->inputs);
}

/* The sizes take turns in every round, so that they stand beside each other. */
void bench_sizes(struct bench *bench, uint64_t n)
{
	struct by_size by_size[SIZE_TRIALS];

	for (unsigned round = 0; round < ROUNDS; round++) {
		for (unsigned i = 0; i < REGION_SIZES; i++) {
			prepare_regions(bench, n, FEWEST_REGION_BLOCKS + i, SEED);
			for (unsigned k = 0; k < SIZE_TRIALS; k++)
				by_size[k].time[i][round] = time_library(bench, &size_trials[k], REGIONS, SIZE_TIMES);
		}
	}
	printf("\nlarge chip, N = %" PRIu64 ", by the size of the region: library ns, and what a block more adds\n",
	       n);
	printf("  %-20s", "entry");
	for (unsigned i = 0; i < REGION_SIZES; i++)
		printf("%3u blocks", FEWEST_REGION_BLOCKS + i);
	printf("%10s   %s\n", "a block", "inputs");
	for (unsigned k = 0; k < SIZE_TRIALS; k++)
		print_size_row(&size_trials[k], &by_size[k]);
}
