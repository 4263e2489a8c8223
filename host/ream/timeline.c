/* A story as text, in lines of at most 80 columns. */
#include "timeline.h"

#include <inttypes.h>
#include <stdio.h>

#include "tool.h"

/* The columns: the number of an event, the ! of a cut or the # of a failed step, its words, the blocks with their *,
 * and the table. */
enum { COLUMNS = 80, NUMBER = 3, BLOCKS = 48, TABLE = 4, WORDS_LEN = 24 };

/* How wide the columns are that are not always alike. */
struct widths {
	int number, words, block;
	bool brief;	/* a block has room for words; otherwise it has letters */
};

static struct widths find_widths(const struct story *story)
{
	const int blocks = (int)story->region.size;
	struct widths widths = { .number = NUMBER, .block = BLOCKS / blocks - 1 };

	for (size_t last = story->rows - 1; last >= 1000; last /= 10)
		widths.number++;
	widths.words = COLUMNS - widths.number - 1 - blocks * (1 + widths.block) - 1 - TABLE;
	widths.brief = blocks == FEWEST_REGION_BLOCKS;
	return widths;
}

static void print_head(const struct story *story, const struct widths *widths)
{
	const struct region *region = &story->region;

	printf("N = %" PRIu64 " blocks, P = %u page%s a copy, seed %" PRIu64 ".\n", region->n, region->pages,
	       plural(region->pages), story->setting.seed);
	printf("The last %s blocks, event by event; * marks the one that it is on, ! a power\n"
	       "cut%s. The table is read where the pair is settled.\n",
	       size_word(region->size), story->setting.failures ? ", # a failed step" : "");
	if (!widths->brief)
		printf("P7 is a primary and M7 a mirror, of version 7; pages of other blocks: P of a\n"
		       "primary, M of a mirror, - erased, x unreadable, B marked bad, R retired, ? of\n"
		       "other bytes.\n");
	else if (region->pages > 1)
		printf("Pages of a block partly written: P of a primary, M of a mirror, - erased,\n"
		       "x unreadable.\n");
	printf("\n%*s %-*s", widths->number, "", widths->words, "event");
	for (unsigned block = 0; block < region->size; block++)
		printf(" %-*" PRIu64, widths->block, region_first(region) + block);
	printf(" read\n");
}

/* An event in a few words; the block is the one marked. */
static void event_words(const struct row *row, char words[WORDS_LEN])
{
	const char *before = row->event == EVENT_CUT ? "CUT, " : row->event == EVENT_FAILED ? "FAIL " : "";

	if (row->event == EVENT_START)
		snprintf(words, WORDS_LEN, "start");
	else if (row->event == EVENT_UPDATE)
		snprintf(words, WORDS_LEN, "update: %" PRIu64 " bad", row->marked);
	else if (row->event == EVENT_RECOVERY)
		snprintf(words, WORDS_LEN, "recovery to v%u", row->to);
	else if (row->block == NOWHERE)
		snprintf(words, WORDS_LEN, "CUT before step %u", row->step);
	else if (row->page == ALL_PAGES)
		snprintf(words, WORDS_LEN, "%sstep %u: erase", before, row->step);
	else if (row->zeroes)
		snprintf(words, WORDS_LEN, "%sstep %u: zero", before, row->step);
	else
		snprintf(words, WORDS_LEN, "%sstep %u: page %u", before, row->step, row->page);
}

static void print_result(const struct story *story, const struct row *row, const struct widths *widths)
{
	char result[RESULT_LEN], reason[RESULT_LEN];

	story_result(row, result);
	story_reason(story, row, reason);
	printf("%*s  => %s: %s\n", widths->number, "", result, reason);
}

/* The mark of a row. */
static char row_mark(enum event event)
{
	return event == EVENT_CUT ? '!' : event == EVENT_FAILED ? '#' : ' ';
}

static void print_row(const struct story *story, size_t i, const struct widths *widths)
{
	const struct row *row = &story->row[i];
	char words[WORDS_LEN], holds[LOOK_LEN];

	event_words(row, words);
	printf("%*zu%c%-*s", widths->number, i, row_mark(row->event), widths->words, words);
	for (unsigned block = 0; block < story->region.size; block++) {
		if (widths->brief)
			look_brief(&row->look[block], holds);
		else
			look_letters(&row->look[block], holds);
		printf("%c%-*s", block == row->block ? '*' : ' ', widths->block, holds);
	}
	if (row->settled)
		printf(" v%u\n", row->version);
	else
		printf(" -\n");
	if (row->result != RESULT_NONE)
		print_result(story, row, widths);
}

/* How many rows have this event. */
static size_t events(const struct story *story, enum event event)
{
	size_t number = 0;

	for (size_t i = 0; i < story->rows; i++)
		number += story->row[i].event == event;
	return number;
}

/* What came of the steps that failed. */
static void print_failures(const struct story *story)
{
	const size_t failed = events(story, EVENT_FAILED);
	size_t anew = 0;

	for (size_t i = 0; i < story->rows; i++)
		anew += story->row[i].result == RESULT_PLANNED_ANEW;
	printf("%zu step%s failed: %zu planned anew, %zu dropped\n", failed, plural(failed), anew, failed - anew);
}

static void print_sum(const struct story *story)
{
	const size_t all = story->rows - 1, updates = events(story, EVENT_UPDATE);
	const size_t cuts = events(story, EVENT_CUT), recoveries = events(story, EVENT_RECOVERY);

	printf("\n%zu event%s: %zu update%s planned, %zu power cut%s, %zu recover%s planned\n", all, plural(all),
	       updates, plural(updates), cuts, plural(cuts), recoveries, recoveries == 1 ? "y" : "ies");
	if (story->setting.failures)
		print_failures(story);
}

void timeline_print(const struct story *story)
{
	const struct widths widths = find_widths(story);

	print_head(story, &widths);
	for (size_t i = 0; i < story->rows; i++)
		print_row(story, i, &widths);
	if (story->all_marked)
		printf("No good block is left to mark: here the history ends.\n");
	print_sum(story);
}
