/* The code of a half by all who can make it, timed. */
#include "bench.h"

#include <stdio.h>
#include <stdlib.h>
#include <string.h>

#include "reamsickle.h"
#include "reference.h"

static void lend_different(struct bench *bench)
{
	memcpy(bench->data, bench->clean, sizeof(bench->data));
}

static void lend_one_page(struct bench *bench)
{
	for (unsigned i = 0; i < PAGES; i++)
		memcpy(bench->data[i], bench->clean[0], sizeof(bench->data[i]));
}

static void lend_blank(struct bench *bench)
{
	memset(bench->data, 0xFF, sizeof(bench->data));
}

/* Gives the refusal, REAM_OK where there is none. */
typedef unsigned coder(struct bench *bench, const uint8_t *half);

static unsigned code_by_library(struct bench *bench, const uint8_t *half)
{
	return ream_refusal(ream_half_code(half, 256, bench->code, 3));
}

static unsigned code_by_reference(struct bench *bench, const uint8_t *half)
{
	return ream_refusal(ref_half_code(half, 256, bench->code, 3));
}

static unsigned code_by_table(struct bench *bench, const uint8_t *half)
{
	yard_by_table(&bench->table, half, bench->code);
	return REAM_OK;
}

static unsigned code_by_words(struct bench *bench, const uint8_t *half)
{
	yard_by_words(&bench->table, half, bench->code);
	return REAM_OK;
}

enum { CODERS = 4 };

static const struct {
	const char *name;
	coder *code;
} coders[CODERS] = {
	{ "library", code_by_library },
	{ "reference", code_by_reference },
	{ "table", code_by_table },
	{ "words", code_by_words },
};

static const struct {
	const char *inputs;
	void (*lend)(struct bench *);
} half_trials[] = {
	{ "different halves", lend_different },
	{ "the same half each time", lend_one_page },
	{ "blank halves", lend_blank },
};

enum { HALF_TRIALS = sizeof(half_trials) / sizeof(half_trials[0]) };

/* The time of one code, in nanoseconds. */
static double timed_codes(struct bench *bench, unsigned trial, coder *code)
{
	unsigned refusals = 0;
	double start, time;

	half_trials[trial].lend(bench);
	start = now();
	for (unsigned i = 0; i < PAGES; i++)
		refusals |= code(bench, bench->data[i]);
	time = now() - start;
	if (refusals != REAM_OK) {
		printf("bench: the code of one of the %s is refused\n", half_trials[trial].inputs);
		exit(EXIT_FAILURE);
	}
	return time / PAGES;
}

static void run_halves(struct bench *bench, unsigned trial)
{
	double times[CODERS][ROUNDS], medians[CODERS];

	for (unsigned i = 0; i < ROUNDS; i++)
		for (unsigned k = 0; k < CODERS; k++)
			times[k][i] = timed_codes(bench, trial, coders[k].code);
	for (unsigned k = 0; k < CODERS; k++)
		medians[k] = median(times[k]);
	printf("  %-24s %10.1f", half_trials[trial].inputs, medians[0]);
	for (unsigned k = 1; k < CODERS; k++)
		printf(" %12.1f %8.4f", medians[k], medians[0] / medians[k]);
	printf("\n");
	fflush(stdout);
}

/* Who times a code has to make the right one. */
static void compare_codes(struct bench *bench)
{
	for (unsigned i = 0; i < PAGES; i++) {
		uint8_t code[3];

		code_by_reference(bench, bench->clean[i]);
		memcpy(code, bench->code, 3);
		for (unsigned k = 0; k < CODERS; k++) {
			const unsigned refusal = coders[k].code(bench, bench->clean[i]);

			if (refusal != REAM_OK || memcmp(code, bench->code, 3) != 0) {
				printf("bench: half %u, the code by %s differs\n", i, coders[k].name);
				exit(EXIT_FAILURE);
			}
		}
	}
}

void bench_halves(struct bench *bench)
{
	compare_codes(bench);
	printf("\nthe code of a half, beside the reference, C with a table of 256 bytes, and C that folds words\n");
	printf("  %-24s %10s", "inputs", "library ns");
	for (unsigned k = 1; k < CODERS; k++)
		printf(" %9s ns %8s", coders[k].name, "ratio");
	printf("\n");
	for (unsigned i = 0; i < HALF_TRIALS; i++)
		run_halves(bench, i);
}
