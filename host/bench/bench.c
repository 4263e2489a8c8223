/*
 * The benchmark: the time of each entry beside the reference's, in one run on one machine.
 *
 * Each round goes through many different inputs, 2,048 pages, 64 regions or the boot blocks of 16 chips, first by
 * the library, then by the reference; one input repeated would let the processor learn its bits by heart. The
 * figures are the medians of the rounds, in nanoseconds a call, and the ratio of the two. What is lent (1 MB of
 * pages, up to 4 MB of regions, 512 KB of spares) is written anew before each timing, so that it is as warm for the
 * one as for the other.
 *
 * Of the small chip the reference is written to be read and not to be fast. So the code of a half, on which its
 * entries spend their time, stands beside C that is written to be fast as well (yardstick.h). Of the large chip
 * the reference is the yardstick: it compares bitmaps by memcmp, copies them by memcpy and goes through entries
 * in plain loops. The map of boot blocks, which has to read all their spares, stands beside the library's own reading
 * of these.
 */
#define _POSIX_C_SOURCE 199309L

#include "bench.h"

#include <stdio.h>
#include <stdlib.h>
#include <time.h>

#include "reamsickle.h"
#include "reference.h"

/* All entries, in the order of struct implementation. */
#define ENTRIES(by) {										\
	by##_half_code, by##_spare_write, by##_spare_read, by##_page_read, by##_boot_map,	\
	by##_first_bitmap, by##_table_read, by##_update_plan, by##_recovery_plan,		\
	by##_update_page, by##_recovery_page, by##_table_page,					\
}

static const struct implementation library = ENTRIES(ream), reference = ENTRIES(ref);

#undef ENTRIES

double now(void)
{
	struct timespec time;

	clock_gettime(CLOCK_PROCESS_CPUTIME_ID, &time);
	return (double)time.tv_sec * 1e9 + (double)time.tv_nsec;
}

static int by_size(const void *left, const void *right)
{
	const double a = *(const double *)left, b = *(const double *)right;

	return (a > b) - (a < b);
}

double median(double *times)
{
	qsort(times, ROUNDS, sizeof(*times), by_size);
	return times[ROUNDS / 2];
}

/* The time of one call, in nanoseconds, over all inputs, which are gone through so often. */
static double timed(struct bench *bench, const struct trial *trial, const struct implementation *by,
		    unsigned inputs, unsigned times)
{
	unsigned refusals = 0;
	double start, time;

	trial->lend(bench);
	bench->failed = trial->failed;
	start = now();
	for (unsigned i = 0; i < times; i++)
		refusals |= trial->round(bench, by);
	time = now() - start;
	if (refusals != REAM_OK) {
		printf("bench: %s did not answer one of its inputs as meant: %s\n", trial->entry, trial->inputs);
		exit(EXIT_FAILURE);
	}
	return time / inputs / times;
}

double time_library(struct bench *bench, const struct trial *trial, unsigned inputs, unsigned times)
{
	return timed(bench, trial, &library, inputs, times);
}

double time_reference(struct bench *bench, const struct trial *trial, unsigned inputs, unsigned times)
{
	return timed(bench, trial, &reference, inputs, times);
}

void run(struct bench *bench, const struct trial *trial, unsigned inputs, unsigned times)
{
	double ours[ROUNDS], theirs[ROUNDS];
	double our_median, their_median;

	for (unsigned i = 0; i < ROUNDS; i++) {
		ours[i] = timed(bench, trial, &library, inputs, times);
		theirs[i] = timed(bench, trial, &reference, inputs, times);
	}
	our_median = median(ours);
	their_median = median(theirs);
	printf("  %-20s %10.1f %12.1f %8.4f   %s\n", trial->entry, our_median, their_median,
	       our_median / their_median, trial->inputs);
	fflush(stdout);
}

void print_heads(void)
{
	printf("  %-20s %10s %12s %8s   %s\n", "entry", "library ns", "reference ns", "ratio", "inputs");
}

int main(void)
{
	struct bench *bench = malloc(sizeof(*bench));

	if (!bench) {
		printf("bench: no memory\n");
		return EXIT_FAILURE;
	}
	prepare_pages(bench);
	printf("processor time a call, median of %d rounds over %d different pages, %d regions or %d small chips;\n",
	       ROUNDS, PAGES, REGIONS, SMALL_CHIPS);
	printf("ratio: the library's time divided by the other's\n");
	bench_small(bench);
	bench_halves(bench);
	bench_boots(bench);
	bench_large(bench, REAM_BLOCKS_MIN);
	bench_large(bench, REAM_BLOCKS_MAX);
	bench_sizes(bench, REAM_BLOCKS_MAX);
	free(bench);
	return EXIT_SUCCESS;
}
