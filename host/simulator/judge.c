/* What is found while a first primary is made, judged. */
#include "judge.h"

#include <string.h>

#include "hand.h"
#include "reamsickle.h"

bool pages_complete(const struct history *history, const struct bringup *bringup, unsigned pages)
{
	return checker_primary(&history->region, bringup->block, &bringup->table, pages);
}

bool primary_complete(const struct history *history, const struct bringup *bringup)
{
	return bringup->attempts > 0 && pages_complete(history, bringup, history->region.pages);
}

bool mirror_can_be(const struct history *history, const struct bringup *bringup)
{
	for (unsigned block = 0; block < history->region.size; block++)
		if (block != bringup->block && !region_bad(&history->region, block))
			return true;
	return false;
}

static uint64_t ask(struct history *history, enum asked asked)
{
	uint8_t wanted[MOST_BITMAP];
	const struct request request = { .asked = asked, .region = &history->region, .wanted = wanted };

	memset(wanted, 0, sizeof(wanted));
	return driver_ask(&history->driver, &history->state, &request);
}

/* The primary is complete, and a recovery is answered so. */
static void judge_complete(struct history *history, const struct bringup *bringup, uint64_t answer)
{
	const uint64_t planned = (uint64_t)bringup->table.version << 8 | (uint64_t)(history->region.pages + 1) << 16;

	if (mirror_can_be(history, bringup))
		require(history, answer == planned,
			"of a first primary that is complete a recovery is planned, with P + 1 steps and its version");
	else
		require(history, answer == REAM_NO_TARGET,
			"of a first primary that is complete a recovery is refused with 11 if no other block is left");
}

bool judge_found(struct history *history, const struct bringup *bringup)
{
	const bool complete = primary_complete(history, bringup);
	const unsigned refusal = complete ? REAM_NOT_SETTLED : REAM_NO_COPY;
	const uint64_t read = ask(history, TABLE_READ);
	const uint64_t update = ask(history, UPDATE_PLAN);
	const uint64_t recovery = ask(history, RECOVERY_PLAN);

	count(history, complete ? FIRST_LOOK_COMPLETE : FIRST_LOOK_NOTHING);
	require(history, checker_read(&history->region) == refusal,
		"the reference finds a first primary once it is complete, and no copy before");
	require(history, read == refusal && update == refusal,
		"reading and updating are refused with 7 until a first primary is complete, then with 10");
	if (complete)
		judge_complete(history, bringup, recovery);
	else
		require(history, recovery == REAM_NO_COPY,
			"a recovery is refused with 7 until a first primary is complete");
	return ream_refusal(recovery) != REAM_NO_COPY;
}

/* Has a block the same bytes and status as before the step? */
static bool kept(const struct history *history, const struct bringup *bringup, unsigned block)
{
	const struct region *region = &history->region, *before = &bringup->before;

	for (unsigned page = 0; page < region->pages; page++)
		if (region_reads_well(region, block, page) != region_reads_well(before, block, page) ||
		    memcmp(region_page(region, block, page), region_page(before, block, page), PAGE_BYTES) != 0)
			return false;
	return true;
}

void judge_others(struct history *history, const struct bringup *bringup)
{
	for (unsigned block = 0; block < history->region.size; block++)
		require(history, block == bringup->block || kept(history, bringup, block),
			"no step of a first primary touches another block");
}

void judge_step(struct history *history, const struct bringup *bringup)
{
	judge_others(history, bringup);
	require(history, !region_bad(&history->region, bringup->block),
		"a block in which a first primary is made is not readable as bad");
	judge_found(history, bringup);
}
