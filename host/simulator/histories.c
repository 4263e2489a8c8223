/*
 * The simulator of power cuts and failed steps: runs histories, each with events drawn from its seed (history.h), and
 * checks demand 3 after every event. Those of even seeds start before a chip's first pair of tables is made.
 *
 *	histories [seed [histories]] [--log]
 *
 * With no argument it runs a fixed number of histories from a fixed seed, the same in every run; with
 * 0 histories it goes on until it is interrupted. History i of a run has the seed `seed + i`, so that it can be
 * run again alone. An interrupt (SIGINT, SIGTERM) ends any run after the history that it came in. With --log it prints
 * a line for each event (log.h); all that it prints then is the same on every host.
 *
 * It prints how often each kind of event and outcome came. The exit status is 0 if no rule was broken and, in a
 * whole run of the fixed number or more, no kind was missing. If a rule is broken it prints the history's seed,
 * its events and the rule.
 */
#define _POSIX_C_SOURCE 200809L

#include <errno.h>
#include <inttypes.h>
#include <signal.h>
#include <stdio.h>
#include <stdlib.h>
#include <string.h>
#include <time.h>

#include "history.h"

enum {
	SEED = 20240229,
	HISTORIES = 6000,	/* the fixed number */
	PROGRESS = 10,		/* a line is printed after so many seconds */
};

/* A run of histories. */
struct run {
	uint64_t seed;
	uint64_t histories;	/* how many; 0 where it has no end */
	struct history *history;
	struct tally *tally;
};

static volatile sig_atomic_t interrupted;

static void interrupt(int number)
{
	(void)number;
	interrupted = 1;
}

/* An interrupt may come twice: timeout(1) sends it to the program, then to the program's group. */
static void take_interrupts(void)
{
	struct sigaction action = { .sa_handler = interrupt, .sa_flags = SA_RESTART };

	sigemptyset(&action.sa_mask);
	sigaction(SIGINT, &action, NULL);
	sigaction(SIGTERM, &action, NULL);
}

static void print_start(const struct run *run)
{
	if (run->histories == 0)
		printf("histories: seed %" PRIu64 ", until it is interrupted (Ctrl-C)\n", run->seed);
	else
		printf("histories: seed %" PRIu64 ", %" PRIu64 " histories\n", run->seed, run->histories);
	fflush(stdout);
}

static void print_progress(const struct run *run)
{
	printf("histories: seed %" PRIu64 ", so far %" PRIu64 " histories, %" PRIu64 " events, no rule broken\n",
	       run->seed, run->tally->histories, run->tally->events);
	fflush(stdout);
}

static void print_broken(const struct run *run, uint64_t i)
{
	printf("histories: seed %" PRIu64 ", history %" PRIu64 " broke a rule\n", run->seed, i);
	printf("  to run it alone: histories %" PRIu64 " 1\n", run->seed + i);
	history_print(run->history);
}

/* Runs them, until an interrupt comes. Gives false if a rule was broken. */
static bool run_all(const struct run *run)
{
	time_t printed = time(NULL);

	for (uint64_t i = 0; (run->histories == 0 || i < run->histories) && !interrupted; i++) {
		if (run->history->logged)
			printf("history %" PRIu64 "\n", run->seed + i);
		if (!history_run(run->history, run->seed + i, run->tally)) {
			print_broken(run, i);
			return false;
		}
		if (!run->history->logged && difftime(time(NULL), printed) >= PROGRESS) {
			print_progress(run);
			printed = time(NULL);
		}
	}
	return true;
}

/* Runs them, and says what came of it. */
static int report(const struct run *run)
{
	const struct tally *tally = run->tally;

	print_start(run);
	if (!run_all(run))
		return EXIT_FAILURE;
	tally_print(tally);
	if (!interrupted && run->histories >= HISTORIES && !tally_full(tally))
		return EXIT_FAILURE;
	printf("histories: seed %" PRIu64 ", %" PRIu64 " histories, %" PRIu64 " events, no rule broken%s\n", run->seed,
	       tally->histories, tally->events, interrupted ? "; interrupted" : "");
	return EXIT_SUCCESS;
}

/* A number as an argument. */
static bool parse(const char *text, uint64_t *number)
{
	char *end;

	errno = 0;
	*number = strtoull(text, &end, 10);
	return *text >= '0' && *text <= '9' && *end == '\0' && errno == 0;
}

/* The arguments but the first, which names the program. */
static bool parse_all(int count, char **text, struct run *run)
{
	if (count > 0 && strcmp(text[count - 1], "--log") == 0) {
		run->history->logged = true;
		count--;
	}
	if (count > 2 || (count > 0 && !parse(text[0], &run->seed)))
		return false;
	return count < 2 || parse(text[1], &run->histories);
}

int main(int argc, char **argv)
{
	struct run run = {
		SEED, HISTORIES, calloc(1, sizeof(struct history)), calloc(1, sizeof(struct tally)),
	};
	int status = EXIT_FAILURE;

	take_interrupts();
	if (!run.history || !run.tally)
		printf("histories: no memory\n");
	else if (!parse_all(argc - 1, argv + 1, &run))
		printf("usage: histories [seed [histories]] [--log]\n");
	else
		status = report(&run);
	free(run.history);
	free(run.tally);
	return status;
}
