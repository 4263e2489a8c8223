/* The checker of a history: demand 3, judged from outside, and the plans that the documents ask for. */
#include "checker.h"

#include <string.h>

#include "reference.h"

static void require(struct checker *checker, bool holds, const char *rule)
{
	if (!holds && !checker->broken)
		checker->broken = rule;
}

/* ---- reading */

/* What the reference reads. */
static uint64_t read_table(const struct region *region, uint8_t *bitmap)
{
	return ref_table_read(region->n, region->size, region->image, region_image_len(region), region->status,
			      region_status_len(region), bitmap, (size_t)region->n / 4);
}

/* Is the pair settled? Then gives its table and the region's blocks of its copies, by the reference. */
static bool settled(const struct region *region, struct table *table, unsigned block[KINDS])
{
	const uint64_t answer = read_table(region, table->bitmap);

	if (answer % 256 != 0)
		return false;
	table->version = (uint8_t)(answer >> 8);
	block[PRIMARY] = (unsigned)((answer >> 16) % 65536 - region_first(region));
	block[MIRROR] = (unsigned)((answer >> 32) % 65536 - region_first(region));
	return true;
}

static bool same_bitmap(const struct region *region, const uint8_t *left, const uint8_t *right)
{
	return memcmp(left, right, (size_t)region->n / 4) == 0;
}

static bool same_table(const struct region *region, const struct table *left, const struct table *right)
{
	return left->version == right->version && same_bitmap(region, left->bitmap, right->bitmap);
}

/* Is the pair settled, with this table? */
static bool holds(const struct region *region, const struct table *table)
{
	struct table found;
	unsigned block[KINDS];

	return settled(region, &found, block) && same_table(region, &found, table);
}

/* "A complete page means it reads well and its 2,048 data bytes and OOB 14-63 are as asked; 0-13 may be
 * anything." */
static bool page_complete(const struct region *region, unsigned block, unsigned page, const uint8_t *asked)
{
	const uint8_t *found = region_page(region, block, page);
	const size_t from = PAGE_DATA + SIGNATURE;

	return region_reads_well(region, block, page) && memcmp(found, asked, PAGE_DATA) == 0 &&
	       memcmp(found + from, asked + from, PAGE_BYTES - from) == 0;
}

bool checker_primary(const struct region *region, unsigned block, const struct table *table, unsigned pages)
{
	for (unsigned page = 0; page < pages; page++) {
		uint8_t asked[PAGE_BYTES];

		region_lay_out(region, page, PRIMARY, table->version, table->bitmap, asked);
		if (!page_complete(region, block, page, asked))
			return false;
	}
	return true;
}

unsigned checker_read(const struct region *region)
{
	uint8_t bitmap[MOST_BITMAP];

	return (unsigned)(read_table(region, bitmap) % 256);
}

/* "a new primary stood with all its pages complete", in whichever block */
static void find_new_primary(struct checker *checker, const struct region *region)
{
	checker->complete = checker->in_failed = false;
	for (unsigned block = 0; block < region->size; block++) {
		if (checker_primary(region, block, &checker->new, region->pages)) {
			checker->complete = true;
			checker->in_failed = checker->plan.failed[block];
		}
	}
}

/* ---- the update rule */

/* "Each entry of the new table is the old entry where that isn't 11, else the wanted one." */
static void update_rule(const struct region *region, const uint8_t *old, const uint8_t *wanted, uint8_t *made)
{
	for (size_t i = 0; i < region->n / 4; i++) {
		unsigned byte = 0;

		for (unsigned low = 0; low < 8; low += 2) {
			const unsigned old_entry = old[i] >> low & 3, wanted_entry = wanted[i] >> low & 3;

			byte |= (old_entry != 3 ? old_entry : wanted_entry) << low;
		}
		made[i] = (uint8_t)byte;
	}
}

/* ---- what happens */

bool checker_settled(const struct region *region)
{
	struct table table;
	unsigned block[KINDS];

	return settled(region, &table, block);
}

void checker_begin_first(struct checker *checker, const struct region *region, const struct table *table)
{
	static const unsigned none[KINDS];

	checker->old = checker->new = *table;
	checker->one = true;
	checker->open = checker->complete = checker->in_failed = false;
	expected_update(&checker->plan, region, none, table->version, false);
	memcpy(checker->last, table->bitmap, sizeof(checker->last));
}

bool checker_begin(struct checker *checker, const struct region *region)
{
	struct table table;
	unsigned block[KINDS];

	checker->broken = NULL;
	if (!settled(region, &table, block))
		return false;
	checker_begin_first(checker, region, &table);
	return true;
}

bool checker_begin_bare(struct checker *checker, const struct region *region)
{
	checker->broken = NULL;
	for (unsigned block = 0; block < region->size; block++)
		if (region_good(region, block, PRIMARY) || region_good(region, block, MIRROR))
			return false;
	return true;
}

void checker_update(struct checker *checker, const struct region *region, const uint8_t *wanted, bool refused)
{
	struct table table;
	unsigned block[KINDS];

	if (!settled(region, &table, block)) {
		require(checker, refused, "an update of a pair that is not settled is refused");
		return;
	}
	require(checker, !refused, "an update of a settled pair is not refused");
	if (refused)
		return;
	checker->old = table;
	update_rule(region, table.bitmap, wanted, checker->new.bitmap);
	checker->one = same_bitmap(region, table.bitmap, checker->new.bitmap);
	checker->new.version = (uint8_t)(table.version + (checker->one ? 0 : 1));
	checker->open = true;
	expected_update(&checker->plan, region, block, checker->new.version, !checker->one);
	memcpy(checker->table, checker->new.bitmap, sizeof(checker->table));
}

/* The bitmap of a good copy. */
static void read_copy(const struct region *region, unsigned block, uint8_t *bitmap)
{
	for (unsigned page = 0; page < region->pages; page++)
		memcpy(bitmap + (size_t)page * PAGE_DATA, region_page(region, block, page),
		       region_part_len(region, page));
}

void checker_recovery(struct checker *checker, const struct region *region, bool refused, unsigned count)
{
	require(checker, !refused, "recovery planning is never refused for what the region holds");
	require(checker, count != 2 * region->pages + 2, "no recovery plans the merge");
	require(checker, refused || count == 0 || count == region->pages + 1, "a recovery has 0 or P + 1 steps");
	if (refused)
		return;
	require(checker, expected_recovery(&checker->plan, region), "a recovery that is planned is one to be planned");
	read_copy(region, checker->plan.other, checker->table);
}

void checker_told(struct checker *checker, const struct region *region, uint64_t block, unsigned page)
{
	require(checker, block >= region_first(region) && block < region->n,
		"no step touches a block outside the region");
	require(checker, page < region->pages, "no step touches a page of P or more");
}

/* Are steps i to i + count - 1 those that are expected? */
static bool same_steps(const uint8_t *steps, const uint8_t *expected, unsigned i, unsigned count)
{
	return memcmp(steps + 4 * i, expected + 4 * i, 4 * count) == 0;
}

/* A plan after a failed step: the zero step, the failed copy's steps, and the other's, if there are any. */
static void check_again(struct checker *checker, const struct region *region, const uint8_t *steps, unsigned count)
{
	const unsigned copy = region->pages + 1, whole = expected_count(&checker->plan, region);
	uint8_t expected[EXPECTED_BYTES];

	expected_steps(&checker->plan, region, expected);
	require(checker, count > copy && same_steps(steps, expected, 0, 1),
		"a plan after a failed step begins with the zero step, on the failed block");
	require(checker, count > copy && same_steps(steps, expected, 1, copy),
		"then come the failed copy's steps, at the highest block that is free for it");
	require(checker, count == whole && same_steps(steps, expected, 1 + copy, whole - copy - 1),
		"then come the other copy's steps if they were still to come, and no others");
}

void checker_plan(struct checker *checker, const struct region *region, unsigned version, const uint8_t *steps,
		  unsigned count)
{
	uint8_t expected[EXPECTED_BYTES];

	require(checker, 4 * count <= EXPECTED_BYTES, "a plan fits into its room");
	if (4 * count > EXPECTED_BYTES)
		return;
	for (unsigned i = 0; i < count; i++)
		checker_told(checker, region, (uint64_t)(steps[4 * i + 1] << 8 | steps[4 * i + 2]), steps[4 * i + 3]);
	require(checker, version == checker->plan.version, "a plan has the version of its update or recovery");
	if (checker->plan.zeroes) {
		check_again(checker, region, steps, count);
		return;
	}
	expected_steps(&checker->plan, region, expected);
	require(checker, count == expected_count(&checker->plan, region) && same_steps(steps, expected, 0, count),
		"a first plan has the steps of its update or recovery");
}

void checker_erase(struct checker *checker, const struct region *region, unsigned block)
{
	require(checker, !region_bad(region, block), "no step erases a block that is readable as bad");
}

/* "A blank page reads well and is all FF." */
static bool page_blank(const struct region *region, unsigned block, unsigned page)
{
	const uint8_t *found = region_page(region, block, page);

	return region_reads_well(region, block, page) && found[0] == 0xFF &&
	       memcmp(found, found + 1, PAGE_BYTES - 1) == 0;
}

/* Document 02 of a plan: "each page is blank when it is written". */
void checker_write(struct checker *checker, const struct region *region, unsigned block, unsigned page)
{
	require(checker, page_blank(region, block, page), "a page is blank when it is written");
}

void checker_zero(struct checker *checker, unsigned block)
{
	require(checker, checker->plan.failed[block],
		"a zero step is on a block of which a step of this plan has failed");
}

void checker_page(struct checker *checker, const struct region *region, unsigned number, const uint8_t *page)
{
	uint8_t asked[PAGE_BYTES];
	enum kind kind;
	unsigned place;

	if (!expected_write(&checker->plan, region, number, &kind, &place)) {
		require(checker, false, "a page is given for a write alone");
		return;
	}
	region_lay_out(region, place, kind, checker->plan.version, checker->table, asked);
	require(checker, memcmp(page, asked, PAGE_BYTES) == 0, "a page is that of its copy, table and version");
}

void checker_failed(struct checker *checker, const struct region *region, unsigned number, unsigned refusal)
{
	require(checker, refusal == expected_failed(&checker->plan, region, number),
		"after a failed step a plan is refused with 12 if that was a zero step, with 11 for want of a block, "
		"and else not");
}

void checker_closed(struct checker *checker, const struct region *region)
{
	if (!checker->open)
		return;
	checker->open = false;
	checker->complete = checker->in_failed = false;
	if (!checker->one)
		find_new_primary(checker, region);
}

void checker_updated(struct checker *checker, const struct region *region)
{
	require(checker, holds(region, &checker->new), "an update that runs to its end leaves the new table settled");
}

enum found checker_recovered(struct checker *checker, const struct region *region)
{
	struct table found;
	unsigned block[KINDS];

	if (!settled(region, &found, block)) {
		require(checker, false, "after a finished recovery the pair is settled");
		return FOUND_ONE;
	}
	if (checker->one) {
		require(checker, same_table(region, &found, &checker->old),
			"after a finished recovery the pair holds the one table there is");
		return FOUND_ONE;
	}
	require(checker, same_table(region, &found, &checker->old) || same_table(region, &found, &checker->new),
		"after a finished recovery the pair holds the whole old table or the whole new one");
	if (checker->complete) {
		require(checker, same_table(region, &found, &checker->new),
			"the new table is kept if the new primary was complete");
		return FOUND_NEW;
	}
	require(checker, same_table(region, &found, &checker->old),
		"the old table is kept if the new primary was not complete");
	return FOUND_OLD;
}

void checker_event(struct checker *checker, const struct region *region)
{
	struct expected afresh;
	struct table table;
	uint8_t kept[MOST_BITMAP];
	unsigned block[KINDS];

	require(checker, expected_recovery(&afresh, region), "at any time there is a recovery to be planned afresh");
	if (!settled(region, &table, block) || same_bitmap(region, table.bitmap, checker->last))
		return;
	update_rule(region, checker->last, table.bitmap, kept);
	require(checker, same_bitmap(region, table.bitmap, kept),
		"an entry that a settled table calls not good is kept");
	memcpy(checker->last, table.bitmap, sizeof(checker->last));
}
