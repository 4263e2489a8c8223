/* Tells how far a long piece of work is. */
#define _POSIX_C_SOURCE 200809L

#include "progress.h"

#include <inttypes.h>
#include <stdio.h>
#include <time.h>
#include <unistd.h>

/* In milliseconds: how long nothing is told, and from one telling to the next. */
enum { SILENT = 1000, BETWEEN = 200 };

static uint64_t now(void)
{
	struct timespec time;

	if (clock_gettime(CLOCK_MONOTONIC, &time) != 0)
		return 0;
	return (uint64_t)time.tv_sec * 1000 + (uint64_t)time.tv_nsec / 1000000;
}

struct progress progress_begin(const char *doing, uint64_t total, const char *unit)
{
	struct progress progress = { .doing = doing, .total = total, .unit = unit, .begun = now() };

	progress.told = progress.begun + SILENT - BETWEEN;
	progress.terminal = isatty(STDERR_FILENO) != 0;
	return progress;
}

void progress_at(struct progress *progress, uint64_t done)
{
	if (!progress->terminal || now() < progress->told + BETWEEN)
		return;
	if (progress->total != 0)
		fprintf(stderr, "\rream: %s: %3" PRIu64 " %%", progress->doing,
			(uint64_t)((double)done / (double)progress->total * 100));
	else
		fprintf(stderr, "\rream: %s: %" PRIu64 " %s", progress->doing, done, progress->unit);
	fflush(stderr);
	progress->told = now();
	progress->shown = true;
}

void progress_end(struct progress *progress)
{
	if (progress->shown)
		fprintf(stderr, "\r%60s\r", "");
	progress->shown = false;
}
