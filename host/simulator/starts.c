/* The starts of histories: drawn, noted and counted. */
#include "starts.h"

#include <inttypes.h>
#include <stdio.h>
#include <string.h>

#include "hand.h"
#include "rig.h"

/* What stands in the blocks, in words. */
static void list_fillings(const struct start *start, char text[EVENT_LEN])
{
	static const char *const words[FILLINGS] = {
		[FILLED_PAIR] = "of the pair", [FILLED_BLANK] = "blank", [FILLED_SENSELESS] = "senseless",
		[FILLED_BAD] = "bad", [FILLED_UNREADABLE] = "unreadable", [FILLED_HALF_PRIMARY] = "half a primary",
		[FILLED_HALF_MIRROR] = "half a mirror", [FILLED_ZEROED] = "64 zeros",
		[FILLED_ZEROED_UNREADABLE] = "64 zeros, unreadable", [FILLED_NEARLY_ZEROED] = "63 zeros, unreadable",
		[FILLED_STRAY] = "stray pages",
	};

	text[0] = '\0';
	for (unsigned block = 0; block < start->size; block++) {
		const size_t len = strlen(text);

		snprintf(text + len, EVENT_LEN - len, "%s%s", block == 0 ? "" : "; ", words[start->filling[block]]);
	}
}

/* ---- with a pair */

static void note_pair(struct history *history, const struct start *start)
{
	const uint64_t first = region_first(&history->region);
	char blocks[EVENT_LEN];

	list_fillings(start, blocks);
	note(history, "start: N = %" PRIu64 ", version %u, primary in block %" PRIu64 ", mirror in %" PRIu64
	     "; blocks from %" PRIu64 " on: %s", start->n, start->version, first + start->block[PRIMARY],
	     first + start->block[MIRROR], first, blocks);
}

static void count_pair(struct history *history, const struct start *start)
{
	static const enum tally_row rows[FILLINGS] = {
		[FILLED_BLANK] = START_BLANK, [FILLED_SENSELESS] = START_SENSELESS, [FILLED_BAD] = START_BAD,
		[FILLED_UNREADABLE] = START_UNREADABLE, [FILLED_HALF_PRIMARY] = START_HALF_PRIMARY,
		[FILLED_HALF_MIRROR] = START_HALF_MIRROR, [FILLED_ZEROED] = START_ZEROED,
		[FILLED_ZEROED_UNREADABLE] = START_ZEROED_UNREADABLE, [FILLED_NEARLY_ZEROED] = START_NEARLY_ZEROED,
	};

	count(history, START_SIZE + start->size - FEWEST_REGION_BLOCKS);
	if (start->version == 0)
		count(history, START_VERSION_0);
	if (start->version == 254)
		count(history, START_VERSION_254);
	if (start->version == 255)
		count(history, START_VERSION_255);
	for (unsigned block = 0; block < start->size; block++)
		if (start->filling[block] != FILLED_PAIR)
			count(history, rows[start->filling[block]]);
}

void start_with_pair(struct history *history)
{
	struct start start;

	do
		rig_start(&history->state, &start, &history->region);
	while (!checker_begin(&history->checker, &history->region));
	note_pair(history, &start);
	count_pair(history, &start);
}

/* ---- with no good copy */

static void note_bare(struct history *history, const struct start *start)
{
	char blocks[EVENT_LEN];

	list_fillings(start, blocks);
	note(history, "start: N = %" PRIu64 ", no good copy; blocks from %" PRIu64 " on: %s", start->n,
	     region_first(&history->region), blocks);
}

static void count_bare(struct history *history, const struct start *start)
{
	static const enum tally_row rows[FILLINGS] = {
		[FILLED_BLANK] = BARE_BLANK, [FILLED_SENSELESS] = BARE_SENSELESS, [FILLED_BAD] = BARE_BAD,
		[FILLED_UNREADABLE] = BARE_UNREADABLE, [FILLED_HALF_PRIMARY] = BARE_HALF_PRIMARY,
		[FILLED_HALF_MIRROR] = BARE_HALF_MIRROR, [FILLED_ZEROED] = BARE_ZEROED,
		[FILLED_ZEROED_UNREADABLE] = BARE_ZEROED_UNREADABLE, [FILLED_NEARLY_ZEROED] = BARE_NEARLY_ZEROED,
		[FILLED_STRAY] = BARE_STRAY,
	};
	unsigned left = 0;

	count(history, BARE_SIZE + start->size - FEWEST_REGION_BLOCKS);
	for (unsigned block = 0; block < start->size; block++) {
		count(history, rows[start->filling[block]]);
		left += !region_bad(&history->region, block);
	}
	count(history, left == 0 ? BARE_NONE_LEFT : left == 1 ? BARE_ONE_LEFT : BARE_MORE_LEFT);
}

void start_bare(struct history *history, struct table *table)
{
	struct start start;

	do
		rig_start_bare(&history->state, &start, &history->region, table->bitmap);
	while (!checker_begin_bare(&history->checker, &history->region));
	table->version = start.version;
	note_bare(history, &start);
	count_bare(history, &start);
}
