/* Tells how far a long piece of work is: on the standard error, if that is a terminal, and from the second second
 * on. */
#ifndef PROGRESS_H
#define PROGRESS_H

#include <stdbool.h>
#include <stdint.h>

struct progress {
	const char *doing;
	uint64_t total;		/* 0 where it is not known */
	const char *unit;	/* in which it counts where the total is not known */
	uint64_t begun, told;	/* when, in milliseconds */
	bool terminal;
	bool shown;
};

struct progress progress_begin(const char *doing, uint64_t total, const char *unit);

/* So much is done. */
void progress_at(struct progress *progress, uint64_t done);

/* Clears the line, if there is one. */
void progress_end(struct progress *progress);

#endif
