/* The making of a first pair, up to its primary. */
#include "bringup.h"

#include <string.h>

#include "draw.h"
#include "events.h"
#include "hand.h"
#include "judge.h"
#include "reamsickle.h"
#include "starts.h"

enum { MOST_ATTEMPTS = 8 };	/* the last one runs to its end */

static const struct broken_off was_cut = {
	.words = "cut in",
	.erase = { [LEFT_AS_IT_WAS] = FIRST_CUT_ERASE_AS_IT_WAS, [LEFT_BLANK] = FIRST_CUT_ERASE_BLANK,
		   [LEFT_UNREADABLE] = FIRST_CUT_ERASE_UNREADABLE },
	.write = { [LEFT_BLANK] = FIRST_CUT_WRITE_BLANK, [LEFT_COMPLETE] = FIRST_CUT_WRITE_COMPLETE,
		   [LEFT_UNREADABLE] = FIRST_CUT_WRITE_UNREADABLE },
	.zero = { [LEFT_AS_IT_WAS] = FIRST_CUT_ZERO_AS_IT_WAS, [LEFT_ZEROED] = FIRST_CUT_ZERO_ZEROED,
		  [LEFT_UNREADABLE] = FIRST_CUT_ZERO_UNREADABLE },
	.nearly_zeroed = FIRST_CUT_NEARLY_ZEROED,
	.unreadable_zeroed = FIRST_CUT_ZERO_UNREADABLE_ZEROED,
};

static const struct broken_off has_failed = {
	.words = "failed:",
	.erase = { [LEFT_AS_IT_WAS] = FIRST_FAILED_ERASE_AS_IT_WAS, [LEFT_BLANK] = FIRST_FAILED_ERASE_BLANK,
		   [LEFT_UNREADABLE] = FIRST_FAILED_ERASE_UNREADABLE },
	.write = { [LEFT_BLANK] = FIRST_FAILED_WRITE_BLANK, [LEFT_COMPLETE] = FIRST_FAILED_WRITE_COMPLETE,
		   [LEFT_UNREADABLE] = FIRST_FAILED_WRITE_UNREADABLE },
	.zero = { [LEFT_AS_IT_WAS] = FIRST_FAILED_ZERO_AS_IT_WAS, [LEFT_ZEROED] = FIRST_FAILED_ZERO_ZEROED,
		  [LEFT_UNREADABLE] = FIRST_FAILED_ZERO_UNREADABLE },
	.nearly_zeroed = FIRST_FAILED_NEARLY_ZEROED,
	.unreadable_zeroed = FIRST_FAILED_ZERO_UNREADABLE_ZEROED,
};

/* ---- an attempt begins */

/* The marks of a region's block, as they are; of the second page FF where it is past the pages that count. */
static void take_marks(const struct region *region, unsigned block, uint8_t *marks)
{
	marks[0] = region_page(region, block, 0)[PAGE_DATA];
	marks[1] = region->pages > 1 ? region_page(region, block, 1)[PAGE_DATA] : 0xFF;
}

/* The table of a chip's marks. Those of the region's blocks are as they are, but the chosen block's are FF. */
static void make_from_marks(struct history *history, unsigned chosen, uint8_t *bitmap)
{
	const struct region *region = &history->region;
	uint8_t marks[2 * MOST_BLOCKS], *of_region = marks + 2 * region_first(region);
	const struct request request = { .asked = FIRST_BITMAP, .region = region, .wanted = marks };
	uint64_t answer;
	bool same = true;

	memset(marks, 0xFF, ream_marks_size(region->n));
	for (uint64_t i = draw_below(&history->state, 8); i > 0; i--) {
		const uint8_t mark = (uint8_t)draw_below(&history->state, 2);

		marks[draw_below(&history->state, 2 * region->n)] = mark;
	}
	for (unsigned block = 0; block < region->size; block++)
		take_marks(region, block, of_region + 2 * block);
	memset(of_region + 2 * chosen, 0xFF, 2);
	answer = driver_ask(&history->driver, &history->state, &request);
	memcpy(bitmap, driver_out(&history->driver), (size_t)region->n / 4);
	for (uint64_t block = 0; block < region->n; block++) {
		const bool marked = marks[2 * block] == 0 || marks[2 * block + 1] == 0;

		same &= ream_entry_get(bitmap, block) == (marked ? REAM_ENTRY_FACTORY : REAM_ENTRY_GOOD);
	}
	require(history, answer == REAM_OK && same, "the first bitmap is that of the marks");
}

/* Line 3. A driver that starts again may have kept its table, or makes another. */
static void choose_table(struct history *history, struct bringup *bringup, unsigned block)
{
	const bool again = bringup->attempts > 0;

	if (again && draw_below(&history->state, 2) == 0) {
		count(history, FIRST_SAME_TABLE);
		return;
	}
	if (again)
		count(history, FIRST_OTHER_TABLE);
	if (draw_below(&history->state, 3) == 0) {
		bringup->table = bringup->known;
		count(history, FIRST_KNOWN_TABLE);
		return;
	}
	bringup->table.version = rig_version(&history->state);
	make_from_marks(history, block, bringup->table.bitmap);
	count(history, FIRST_FROM_MARKS);
}

/* Line 2: a block that is not readable as bad, if there is one. Often it is that of the last attempt. */
static bool choose_block(struct history *history, const struct bringup *bringup, unsigned *block)
{
	const struct region *region = &history->region;
	unsigned from = (unsigned)draw_below(&history->state, region->size);

	if (bringup->attempts > 0 && draw_below(&history->state, 2) == 0)
		from = bringup->block;
	for (unsigned i = 0; i < region->size; i++) {
		*block = (from + i) % region->size;
		if (!region_bad(region, *block))
			return true;
	}
	return false;
}

/* Gives false if no block is left. */
static bool begin_attempt(struct history *history, struct bringup *bringup)
{
	unsigned block;

	if (!choose_block(history, bringup, &block)) {
		note(history, "no block is left for a first primary");
		count(history, FIRST_NO_BLOCK);
		return false;
	}
	if (bringup->attempts > 0)
		count(history, block == bringup->block ? FIRST_SAME_BLOCK : FIRST_OTHER_BLOCK);
	choose_table(history, bringup, block);
	bringup->block = block;
	bringup->failed = false;
	bringup->attempts++;
	note(history, "first primary: version %u, block %u", bringup->table.version,
	     (unsigned)region_first(&history->region) + block);
	count(history, FIRST_ATTEMPT);
	return true;
}

/* ---- its steps: step 0 is the erase, step i + 1 the write of page i */

static void note_first(struct history *history, const struct bringup *bringup, const char *what, unsigned step,
		       const char *left)
{
	const unsigned block = (unsigned)region_first(&history->region) + bringup->block;

	if (step == 0)
		note(history, "%s the first primary's erase of block %u%s", what, block, left);
	else
		note(history, "%s the first primary's page %u in block %u%s", what, step - 1, block, left);
}

static const uint8_t *ask_first_page(struct history *history, const struct bringup *bringup, unsigned page)
{
	const struct request request = { .asked = TABLE_PAGE, .region = &history->region, .step = page,
					 .wanted = bringup->table.bitmap, .version = bringup->table.version };
	const uint64_t answer = driver_ask(&history->driver, &history->state, &request);
	uint8_t asked[PAGE_BYTES];

	region_lay_out(&history->region, page, PRIMARY, bringup->table.version, bringup->table.bitmap, asked);
	require(history, pages_complete(history, bringup, page),
		"the pages of a first primary are written in rising order, each once those before are complete");
	require(history, answer == REAM_OK, "a page of a first primary is given");
	require(history, memcmp(driver_out(&history->driver), asked, PAGE_BYTES) == 0,
		"a page of a first primary is that of its table and version");
	return driver_out(&history->driver);
}

static void do_first(struct history *history, struct bringup *bringup, unsigned step)
{
	struct region *region = &history->region;
	const unsigned block = bringup->block;

	note_first(history, bringup, "done:", step, "");
	if (step == 0) {
		checker_erase(&history->checker, region, block);
		region_erase(region, block);
		count(history, FIRST_ERASE);
		return;
	}
	checker_write(&history->checker, region, block, step - 1);
	rig_write(&history->state, region, block, step - 1, ask_first_page(history, bringup, step - 1));
	count(history, FIRST_WRITE);
	bringup->ended = FIRST_COMPLETE_DONE;
}

static void break_off_first(struct history *history, struct bringup *bringup, const struct broken_off *how,
			    unsigned step)
{
	const unsigned block = bringup->block;
	char erased[EVENT_LEN];
	const char *left = erased;

	if (step == 0)
		leave_erase(history, how, block, erased);
	else
		left = leave_write(history, how, block, step - 1, ask_first_page(history, bringup, step - 1));
	note_first(history, bringup, how->words, step, left);
	bringup->failed = how == &has_failed;
	bringup->ended = bringup->failed ? FIRST_COMPLETE_FAILED : FIRST_COMPLETE_CUT;
}

/* ---- a zero step on a failed block */

static void do_zero(struct history *history, unsigned block)
{
	rig_zero(&history->state, &history->region, block);
	count(history, region_reads_well(&history->region, block, 0) ? FIRST_ZERO_WELL : FIRST_ZERO_UNREADABLE);
	require(history, region_bad(&history->region, block), "a block that is zeroed is readable as bad");
}

/* Line 5. The zero step may fail or be cut in its turn: either way the driver goes on as after a cut. */
static void retire(struct history *history, struct bringup *bringup)
{
	const unsigned block = bringup->block, told = (unsigned)region_first(&history->region) + block;
	const bool complete = primary_complete(history, bringup);

	require(history, bringup->failed, "a zero step is on a block of which a step of a first primary has failed");
	bringup->before = history->region;
	switch (draw_below(&history->state, 6)) {
	case 0:
		note(history, "cut before zeroing block %u", told);
		count(history, FIRST_CUT_BEFORE_ZERO);
		break;
	case 1:
		note(history, "cut in zeroing block %u%s", told, leave_zero(history, &was_cut, block));
		break;
	case 2:
		note(history, "failed: zeroing block %u%s", told, leave_zero(history, &has_failed, block));
		break;
	default:
		do_zero(history, block);
		note(history, "done: zeroing block %u", told);
		break;
	}
	judge_others(history, bringup);
	if (complete && !primary_complete(history, bringup))
		count(history, FIRST_COMPLETE_ZEROED);
}

/* ---- an attempt */

/* A step is cut or fails, or power is cut before it. */
static void meet(struct history *history, struct bringup *bringup, unsigned step)
{
	const uint64_t choice = draw_below(&history->state, 5);

	if (choice == 0) {
		note_first(history, bringup, "cut before", step, "");
		count(history, FIRST_CUT_BETWEEN);
		return;
	}
	tally_add_step(history->tally, choice < 3 ? CUT_IN_FIRST : FAILED_IN_FIRST, step, history->region.pages);
	break_off_first(history, bringup, choice < 3 ? &was_cut : &has_failed, step);
	judge_step(history, bringup);
	if (choice >= 3)
		retire(history, bringup);
}

/* The step at which something else happens, most often the last; or none. */
static unsigned draw_fate(struct history *history, unsigned steps)
{
	const unsigned drawn = (unsigned)draw_below(&history->state, steps + 3);

	return drawn == steps ? steps - 1 : drawn;
}

/* Line 4. */
static void attempt(struct history *history, struct bringup *bringup)
{
	const unsigned steps = history->region.pages + 1;
	const unsigned fate = bringup->attempts < MOST_ATTEMPTS ? draw_fate(history, steps) : NO_FATE;

	for (unsigned step = 0; step < steps; step++) {
		bringup->before = history->region;
		if (step == fate)
			meet(history, bringup, step);
		if (step == fate || broken(history))
			return;
		do_first(history, bringup, step);
		judge_step(history, bringup);
	}
	require(history, primary_complete(history, bringup), "a first primary whose steps are all done is complete");
}

/* The primary is found. Gives true if it can have a mirror. */
static bool end(struct history *history, const struct bringup *bringup)
{
	count(history, bringup->ended);
	if (!mirror_can_be(history, bringup)) {
		note(history, "no block is left for the mirror of the first primary");
		count(history, FIRST_NO_TARGET_SIZE + history->region.size - FEWEST_REGION_BLOCKS);
		return false;
	}
	checker_begin_first(&history->checker, &history->region, &bringup->table);
	count(history, FIRST_GOES_ON_SIZE + history->region.size - FEWEST_REGION_BLOCKS);
	return true;
}

bool bring_up(struct history *history)
{
	struct bringup bringup;

	bringup.attempts = 0;
	start_bare(history, &bringup.known);
	while (!judge_found(history, &bringup)) {
		if (broken(history) || !begin_attempt(history, &bringup))
			return false;
		attempt(history, &bringup);
	}
	return !broken(history) && end(history, &bringup);
}
