/* A story: a chip through updates, power cuts and recoveries. */
#include "story.h"

#include <inttypes.h>
#include <stdio.h>
#include <string.h>

#include "draw.h"
#include "progress.h"
#include "rig.h"
#include "table.h"

/* A step in words. */
static void step_words(const struct story *story, const struct row *row, const char *before,
		       char words[EVENT_LEN])
{
	const uint64_t block = region_first(&story->region) + row->block;

	if (row->page == ALL_PAGES)
		snprintf(words, EVENT_LEN, "%sstep %u: erase %" PRIu64, before, row->step, block);
	else if (row->zeroes)
		snprintf(words, EVENT_LEN, "%sstep %u: zero %" PRIu64, before, row->step, block);
	else
		snprintf(words, EVENT_LEN, "%sstep %u: write %" PRIu64 " page %u", before, row->step, block,
			 row->page);
}

void story_event(const struct story *story, const struct row *row, char words[EVENT_LEN])
{
	switch (row->event) {
	case EVENT_START:
		snprintf(words, EVENT_LEN, "start");
		break;
	case EVENT_UPDATE:
		snprintf(words, EVENT_LEN, "update to v%u: %" PRIu64 " went bad", row->to, row->marked);
		break;
	case EVENT_RECOVERY:
		snprintf(words, EVENT_LEN, "recovery to v%u", row->to);
		break;
	case EVENT_STEP:
		step_words(story, row, "", words);
		break;
	case EVENT_CUT:
		if (row->block == NOWHERE)
			snprintf(words, EVENT_LEN, "CUT before step %u", row->step);
		else
			step_words(story, row, "CUT in ", words);
		break;
	case EVENT_FAILED:
		step_words(story, row, "FAILED ", words);
		break;
	}
}

void story_result(const struct row *row, char words[RESULT_LEN])
{
	static const char *const results[] = {
		[RESULT_NONE] = "", [RESULT_UPDATED] = "updated", [RESULT_OLD_KEPT] = "OLD table kept",
		[RESULT_NEW_KEPT] = "NEW table kept", [RESULT_ONE_KEPT] = "table kept",
		[RESULT_PLANNED_ANEW] = "planned anew", [RESULT_DROPPED] = "plan dropped",
	};
	const char *result = results[row->result];

	if (row->result == RESULT_PLANNED_ANEW)
		snprintf(words, RESULT_LEN, "%s, %u steps", result, row->steps);
	else if (row->result == RESULT_DROPPED)
		snprintf(words, RESULT_LEN, "%s, refusal %u", result, row->refusal);
	else
		snprintf(words, RESULT_LEN, "%s, v%u", result, row->version);
}

void story_reason(const struct story *story, const struct row *row, char words[RESULT_LEN])
{
	static const char *const reasons[] = {
		[RESULT_NONE] = "", [RESULT_UPDATED] = "no cut: both copies are new",
		[RESULT_OLD_KEPT] = "the update's new primary was not complete",
		[RESULT_NEW_KEPT] = "the update's new primary was complete",
		[RESULT_ONE_KEPT] = "no update was under way",
		[RESULT_PLANNED_ANEW] = "will be retired, its copy goes to",
	};

	if (row->result == RESULT_PLANNED_ANEW)
		snprintf(words, RESULT_LEN, "%" PRIu64 " %s %u", region_first(&story->region) + row->block,
			 reasons[row->result], row->target);
	else if (row->result == RESULT_DROPPED)
		snprintf(words, RESULT_LEN, "%s", ream_refusal_text(row->refusal));
	else
		snprintf(words, RESULT_LEN, "%s", reasons[row->result]);
}

/* ---- rows */

/* Adds a row for an event; what it left is set down by end_row(). */
static void begin_row(struct story *story, struct row row)
{
	if (story->rows == story->room)
		story->broken = "what is begun comes to its end";
	else
		story->row[story->rows++] = row;
}

/* Sets down what the last event left, and judges it. */
static void end_row(struct story *story, enum result result)
{
	struct settled table;
	struct row *row;

	if (story->broken)
		return;
	row = &story->row[story->rows - 1];
	for (unsigned block = 0; block < story->region.size; block++)
		row->look[block] = look_at(&story->region, block);
	row->settled = table_read(&story->region, &table) == REAM_OK;
	row->version = (uint8_t)table.version;
	row->result = result;
	checker_event(&story->checker, &story->region);
	story->broken = story->checker.broken;
	if (row->settled != checker_settled(&story->region))
		story->broken = "the library reads a table exactly when the pair is settled";
}

/* ---- plans */

/* A good block of the settled table, drawn, to be marked late. False where there is none. */
static bool draw_good_block(struct story *story, const struct settled *table, uint64_t *block)
{
	const uint64_t n = story->region.n, first = draw_below(&story->state, n);

	for (uint64_t i = 0; i < n; i++) {
		*block = (first + i) % n;
		if (ream_entry_get(table->bitmap, *block) == REAM_ENTRY_GOOD)
			return true;
	}
	return false;
}

/* Takes the plan that was made into the hand. */
static void take_in_hand(struct story *story)
{
	story->in_hand = true;
	story->next = 0;
	checker_plan(&story->checker, &story->region, story->plan.version, story->plan.steps, story->plan.count);
}

/* The plan in hand is over: by its end, by a cut, or because it is refused to plan anew. */
static void let_go(struct story *story)
{
	checker_closed(&story->checker, &story->region);
	story->in_hand = false;
}

/* Plans an update that marks a block late. False where no good block is left. */
static bool plan_update(struct story *story, const struct settled *table)
{
	uint8_t wanted[MOST_BITMAP];
	uint64_t block;
	unsigned refusal;

	story->all_marked = !draw_good_block(story, table, &block);
	if (story->all_marked)
		return false;
	memset(wanted, 0xFF, sizeof(wanted));
	ream_entry_set(wanted, block, REAM_ENTRY_LATE);
	refusal = plan_make(&story->plan, &story->region, wanted);
	checker_update(&story->checker, &story->region, wanted, refusal != REAM_OK);
	begin_row(story, (struct row){ .event = EVENT_UPDATE, .block = NOWHERE, .to = story->plan.version,
				       .marked = block });
	take_in_hand(story);
	end_row(story, RESULT_NONE);
	return true;
}

static void plan_recovery(struct story *story)
{
	const unsigned refusal = plan_make(&story->plan, &story->region, NULL);

	checker_recovery(&story->checker, &story->region, refusal != REAM_OK, story->plan.count);
	begin_row(story, (struct row){ .event = EVENT_RECOVERY, .block = NOWHERE, .to = story->plan.version });
	if (refusal == REAM_OK)
		take_in_hand(story);
	end_row(story, RESULT_NONE);
}

/* ---- steps and cuts */

/* The step that comes next, with its row begun, and judged. */
static struct ream_step begin_step(struct story *story, enum event event)
{
	const struct ream_step step = plan_step(&story->plan, story->next);
	const unsigned block = plan_block(&story->plan, &step);

	begin_row(story, (struct row){ .event = event, .block = block,
				       .page = step.kind == REAM_ERASE ? ALL_PAGES : step.page,
				       .step = story->next, .zeroes = step.kind == REAM_ZERO });
	if (step.kind == REAM_ERASE)
		checker_erase(&story->checker, &story->region, block);
	else if (step.kind == REAM_ZERO)
		checker_zero(&story->checker, block);
	else
		checker_write(&story->checker, &story->region, block, step.page);
	return step;
}

/* The page that it writes, judged. */
static void step_page(struct story *story, uint8_t page[PAGE_BYTES])
{
	plan_page(&story->plan, story->next, page);
	checker_page(&story->checker, &story->region, story->next, page);
}

/* The plan in hand ran to its end. */
static enum result finish(struct story *story)
{
	static const enum result results[] = {
		[FOUND_ONE] = RESULT_ONE_KEPT, [FOUND_OLD] = RESULT_OLD_KEPT, [FOUND_NEW] = RESULT_NEW_KEPT,
	};

	let_go(story);
	if (!story->plan.updates)
		return results[checker_recovered(&story->checker, &story->region)];
	checker_updated(&story->checker, &story->region);
	return RESULT_UPDATED;
}

static void do_step(struct story *story)
{
	const struct ream_step step = begin_step(story, EVENT_STEP);
	const unsigned block = plan_block(&story->plan, &step);
	uint8_t page[PAGE_BYTES];

	if (step.kind == REAM_ERASE) {
		region_erase(&story->region, block);
	} else if (step.kind == REAM_ZERO) {
		rig_zero(&story->state, &story->region, block);
	} else {
		step_page(story, page);
		rig_write(&story->state, &story->region, block, step.page, page);
	}
	story->next++;
	end_row(story, story->next == story->plan.count ? finish(story) : RESULT_NONE);
}

/* The step that comes next is cut or fails: its row is begun, and its block is left as that leaves it. */
static void break_step(struct story *story, enum event event)
{
	const struct ream_step step = begin_step(story, event);
	const unsigned block = plan_block(&story->plan, &step);
	enum left left[MOST_PAGES];
	uint8_t page[PAGE_BYTES];

	if (step.kind == REAM_ERASE) {
		rig_cut_erase(&story->state, &story->region, block, left);
	} else if (step.kind == REAM_ZERO) {
		rig_cut_zero(&story->state, &story->region, block);
	} else {
		step_page(story, page);
		rig_cut_write(&story->state, &story->region, block, step.page, page);
	}
}

static void cut_in_step(struct story *story)
{
	break_step(story, EVENT_CUT);
	let_go(story);
	end_row(story, RESULT_NONE);
}

/* Plans anew, as the step that comes next has failed, or drops the plan. Gives what came of it. */
static enum result plan_around(struct story *story)
{
	struct row *row = &story->row[story->rows - 1];

	row->refusal = plan_anew(&story->plan, (uint8_t)story->next);
	checker_failed(&story->checker, &story->region, story->next, row->refusal);
	if (row->refusal != REAM_OK) {
		let_go(story);
		return RESULT_DROPPED;
	}
	take_in_hand(story);
	row->steps = story->plan.count;
	row->target = plan_step(&story->plan, 1).block;
	return RESULT_PLANNED_ANEW;
}

static void fail_in_step(struct story *story)
{
	break_step(story, EVENT_FAILED);
	end_row(story, plan_around(story));
}

static void cut_before_step(struct story *story)
{
	begin_row(story, (struct row){ .event = EVENT_CUT, .block = NOWHERE, .step = story->next });
	let_go(story);
	end_row(story, RESULT_NONE);
}

/* ---- the whole story */

/* The next event within a plan. About half of all plans are cut, and in one of five a step fails. */
static void next_in_plan(struct story *story, bool mishaps)
{
	const uint64_t chance = draw_below(&story->state, 4 * (uint64_t)story->plan.count);

	if (mishaps && chance < 2)
		cut_in_step(story);
	else if (mishaps && chance == 2)
		cut_before_step(story);
	else if (mishaps && chance == 3 && story->setting.failures)
		fail_in_step(story);
	else
		do_step(story);
}

/* The next event: one of all that there are, or on the way to the end of what is begun. False where there is none. */
static bool next_event(struct story *story, bool to_end)
{
	struct settled table;

	if (story->in_hand) {
		next_in_plan(story, !to_end);
		return true;
	}
	if (table_read(&story->region, &table) == REAM_OK)
		return !to_end && plan_update(story, &table);
	plan_recovery(story);
	return true;
}

/* Makes the bytes behind the bitmap's end FF in every copy's last page, as on a chip; the rig draws them. */
static void clear_behind(struct region *region)
{
	const unsigned page = region->pages - 1;
	const size_t len = region_part_len(region, page);

	for (unsigned block = 0; block < region->size; block++)
		if (region_signed(region, block, page, PRIMARY) || region_signed(region, block, page, MIRROR))
			memset(region_data(region, block, page) + len, 0xFF, PAGE_DATA - len);
}

/* Can the story start here? The pair has to be settled, with half of the blocks good or more. */
static bool can_start(struct story *story)
{
	const uint64_t n = story->region.n;
	uint64_t good = 0;

	if (!checker_begin(&story->checker, &story->region))
		return false;
	for (uint64_t block = 0; block < n; block++)
		good += ream_entry_get(story->checker.last, block) == REAM_ENTRY_GOOD;
	return good >= n / 2;
}

static void begin(struct story *story, const struct setting *setting, struct row *row)
{
	struct start start;

	story->setting = *setting;
	story->row = row;
	story->rows = 0;
	story->room = (size_t)setting->events + STORY_MORE;
	story->in_hand = story->all_marked = false;
	story->broken = NULL;
	story->state = setting->seed;
	do
		rig_start_on(&story->state, setting->n, setting->size, &start, &story->region);
	while (!can_start(story));
	clear_behind(&story->region);
	begin_row(story, (struct row){ .event = EVENT_START, .block = NOWHERE });
	end_row(story, RESULT_NONE);
}

bool story_run(struct story *story, const struct setting *setting, struct row *row)
{
	struct progress progress = progress_begin("simulating", setting->events, NULL);

	begin(story, setting, row);
	while (!story->broken && story->rows <= setting->events && next_event(story, false))
		progress_at(&progress, story->rows);
	while (!story->broken && !setting->stop && next_event(story, true))
		continue;
	progress_end(&progress);
	return !story->broken;
}
