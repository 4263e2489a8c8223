/*
 * The large chip, straight from document 01, in its order and its words, as small.c has the small page. What that
 * says of the region's four blocks holds for the size that is given, as document 02 has it. What becomes of a plan
 * whose steps fail is in failed.c. Nothing here is shared with the library, not even its header.
 *
 * Reading a table, planning an update and its page images are the benchmark's yardstick besides, so they do
 * their work as a C programmer would: bitmaps are compared by memcmp and copied by memcpy, a page's part at a
 * time, and the update rule is a plain loop over bytes, four entries at a time.
 */
#include "reference.h"

#include <stdbool.h>
#include <string.h>

#include "plans.h"

enum {
	DATA = 2048,
	OOB = 64,
	PAGE = DATA + OOB,
	STEPS_LEN = 64,
};

/* ---- the chip */

/* "N a multiple of 4 from 8 to 32,768" */
static bool is_number_of_blocks(uint64_t n)
{
	return n >= 8 && n <= 32768 && n % 4 == 0;
}

/* Document 02: "the region's size, 4 to 7 blocks", "refusal 2 outside these or with N below twice it" */
static bool is_chip(uint64_t n, uint64_t size)
{
	return is_number_of_blocks(n) && size >= 4 && size <= 7 && n >= 2 * size;
}

/* "P = N/4 divided by 2,048, rounded up" */
static size_t pages_of(uint64_t n)
{
	return (size_t)((n / 4 + 2047) / 2048);
}

/* ---- the region */

static const uint8_t *data_of(const struct region *region, size_t block, size_t page)
{
	return region->image + (block * region->pages + page) * PAGE;
}

static const uint8_t *oob_of(const struct region *region, size_t block, size_t page)
{
	return data_of(region, block, page) + DATA;
}

static bool reads_well(const struct region *region, size_t block, size_t page)
{
	return region->status[block * region->pages + page] == 0;
}

/* "a status byte outside its range" */
static bool has_bad_status(const struct region *region)
{
	for (size_t i = 0; i < region->size * region->pages; i++)
		if (region->status[i] > 1)
			return true;
	return false;
}

/* "N - 4 to N - 1", where 4 is the size */
static uint64_t chip_block(const struct region *region, size_t block)
{
	return region->n - region->size + block;
}

/* How many bytes of the bitmap stand in a page. "The rest of the last page is ignored on reading." */
static size_t part_len(const struct region *region, size_t page)
{
	const size_t rest = (size_t)region->n / 4 - page * DATA;

	return rest < DATA ? rest : DATA;
}

/* ---- copies */

/* "in OOB 14-17 its signature, primary 42 62 74 30, mirror 31 74 62 42" */
static const uint8_t signature[2][4] = { { 0x42, 0x62, 0x74, 0x30 }, { 0x31, 0x74, 0x62, 0x42 } };

static bool has_signature(const uint8_t *oob, enum kind kind)
{
	return memcmp(oob + 14, signature[kind], 4) == 0;
}

/* "in OOB 18 its version": that of the first page, which a good copy has on all of its pages */
static uint8_t version_of(const struct region *region, size_t block)
{
	return oob_of(region, block, 0)[18];
}

/* "A block is a good primary (mirror) if its P pages all read well with that signature and one version." */
static bool is_good(const struct region *region, size_t block, enum kind kind)
{
	for (size_t page = 0; page < region->pages; page++) {
		const uint8_t *oob = oob_of(region, block, page);

		if (!reads_well(region, block, page) || !has_signature(oob, kind) ||
		    oob[18] != version_of(region, block))
			return false;
	}
	return true;
}

static bool all_zero(const uint8_t *oob)
{
	for (size_t i = 0; i < OOB; i++)
		if (oob[i] != 0)
			return false;
	return true;
}

/* "It is readable as bad if its first page reads well, has neither signature, and OOB byte 0 is 0." Document 02: "A
 * block whose first page shows 64 zero OOB bytes counts as readable as bad whatever its read status". */
bool ref_readable_as_bad(const struct region *region, size_t block)
{
	const uint8_t *oob = oob_of(region, block, 0);
	const bool marked = reads_well(region, block, 0) && !has_signature(oob, PRIMARY) &&
			    !has_signature(oob, MIRROR) && oob[0] == 0;

	return marked || all_zero(oob);
}

/* ---- the pair */

struct pair {
	unsigned good[2];	/* how many blocks are a good primary, and a good mirror */
	size_t block[2];	/* the highest such block, if there is one */
};

static struct pair pair_of(const struct region *region)
{
	struct pair pair = { { 0, 0 }, { 0, 0 } };

	for (size_t block = 0; block < region->size; block++) {
		for (enum kind kind = PRIMARY; kind <= MIRROR; kind++) {
			if (is_good(region, block, kind)) {
				pair.good[kind]++;
				pair.block[kind] = block;
			}
		}
	}
	return pair;
}

/* "primary version minus mirror version, modulo 256, read as a signed number from -128 to 127" */
static int difference(const struct region *region, const struct pair *pair)
{
	const int primary = version_of(region, pair->block[PRIMARY]);
	const int mirror = version_of(region, pair->block[MIRROR]);
	const int modulo = (primary - mirror + 256) % 256;

	return modulo <= 127 ? modulo : modulo - 256;
}

static bool has_both(const struct pair *pair)
{
	return pair->good[PRIMARY] == 1 && pair->good[MIRROR] == 1;
}

/* Refusals 8, 7 and 9, in this order. */
static enum refusal pair_refusal(const struct region *region, const struct pair *pair)
{
	if (pair->good[PRIMARY] >= 2 || pair->good[MIRROR] >= 2)
		return SEVERAL_OF_A_KIND;
	if (pair->good[PRIMARY] == 0 && pair->good[MIRROR] == 0)
		return NO_GOOD_COPY;
	if (has_both(pair) && difference(region, pair) == -128)
		return OPPOSITE_VERSIONS;
	return ANSWERED;
}

static bool bitmaps_equal(const struct region *region, const struct pair *pair)
{
	for (size_t page = 0; page < region->pages; page++) {
		const uint8_t *primary = data_of(region, pair->block[PRIMARY], page);
		const uint8_t *mirror = data_of(region, pair->block[MIRROR], page);

		if (memcmp(primary, mirror, part_len(region, page)) != 0)
			return false;
	}
	return true;
}

/* "exactly one good primary and one good mirror, with equal versions and equal bitmaps" */
static bool is_settled(const struct region *region, const struct pair *pair)
{
	return has_both(pair) && difference(region, pair) == 0 && bitmaps_equal(region, pair);
}

/* The bitmap of a good copy. */
static void table_copy(const struct region *region, size_t block, uint8_t *table)
{
	for (size_t page = 0; page < region->pages; page++)
		memcpy(table + page * DATA, data_of(region, block, page), part_len(region, page));
}

/* ---- plans */

/* "erase the block, write its P pages", in rising order. */
void ref_plan_copy(struct plan *plan, const struct region *region, enum kind kind, size_t block)
{
	plan->at[kind] = block;
	plan->step[plan->count++] = (struct step){ ERASE, block, 0, kind };
	for (size_t page = 0; page < region->pages; page++)
		plan->step[plan->count++] = (struct step){ WRITE, block, page, kind };
}

/* A plan with no step as yet, beside the copies of a pair. */
static void plan_begin(struct plan *plan, const struct pair *pair)
{
	plan->count = 0;
	plan->at[PRIMARY] = pair->block[PRIMARY];
	plan->at[MIRROR] = pair->block[MIRROR];
}

/* "Erase the primary's block, write its P pages, erase the mirror's block, write its P pages, all with
 * version plus 1 modulo 256." */
static void plan_both(struct plan *plan, const struct region *region, const struct pair *pair)
{
	plan->version = (uint8_t)((version_of(region, pair->block[PRIMARY]) + 1) % 256);
	ref_plan_copy(plan, region, PRIMARY, pair->block[PRIMARY]);
	ref_plan_copy(plan, region, MIRROR, pair->block[MIRROR]);
}

/* "Each entry of the new table is the old entry where that isn't 11, else the wanted one." A byte holds four
 * entries; `good` has both bits of each that is 11. */
static void table_update(uint8_t *table, const uint8_t *old, const uint8_t *wanted, size_t len)
{
	for (size_t i = 0; i < len; i++) {
		const unsigned low = old[i] & old[i] >> 1 & 0x55;
		const unsigned good = low | low << 1;

		table[i] = (uint8_t)((old[i] & ~good) | (wanted[i] & good));
	}
}

static void table_and(uint8_t *table, const uint8_t *other, size_t len)
{
	for (size_t i = 0; i < len; i++)
		table[i] &= other[i];
}

/* "Update". Refusals 8, 7, 9, 10, or a plan. */
static enum refusal update_judge(const struct region *region, const uint8_t *wanted, struct plan *plan)
{
	const size_t len = (size_t)region->n / 4;
	const struct pair pair = pair_of(region);
	uint8_t old[MOST_BITMAP];

	if (pair_refusal(region, &pair) != ANSWERED)
		return pair_refusal(region, &pair);
	if (!is_settled(region, &pair))
		return NOT_SETTLED;

	table_copy(region, pair.block[PRIMARY], old);
	table_update(plan->table, old, wanted, len);
	plan->version = version_of(region, pair.block[PRIMARY]);
	plan_begin(plan, &pair);
	if (memcmp(plan->table, old, len) != 0)
		plan_both(plan, region, &pair);
	return ANSWERED;
}

/* Both good, and d is not -128. */
static void recover_both(const struct region *region, const struct pair *pair, struct plan *plan)
{
	const int d = difference(region, pair);
	const size_t primary = pair->block[PRIMARY], mirror = pair->block[MIRROR];

	if (d < 0) {
		/* "the same the other way" */
		table_copy(region, mirror, plan->table);
		plan->version = version_of(region, mirror);
		ref_plan_copy(plan, region, PRIMARY, primary);
		return;
	}
	table_copy(region, primary, plan->table);
	plan->version = version_of(region, primary);
	if (d > 0) {
		/* "erase the mirror's block, write the primary's table there as mirror" */
		ref_plan_copy(plan, region, MIRROR, mirror);
	} else if (!bitmaps_equal(region, pair)) {
		/* "AND both bitmaps, then an update's steps with version plus 1" */
		uint8_t other[MOST_BITMAP];

		table_copy(region, mirror, other);
		table_and(plan->table, other, (size_t)region->n / 4);
		plan_both(plan, region, pair);
	}
}

/* "Only one kind good: the target is the highest block that is neither the good one's nor readable as bad.
 * Erase it, write the missing kind, same version." */
static enum refusal recover_one(const struct region *region, size_t good, enum kind missing, struct plan *plan)
{
	for (size_t target = (size_t)region->size; target-- > 0;) {
		if (target == good || ref_readable_as_bad(region, target))
			continue;
		table_copy(region, good, plan->table);
		plan->version = version_of(region, good);
		ref_plan_copy(plan, region, missing, target);
		return ANSWERED;
	}
	return NO_TARGET;
}

/* "Recovery". Refusals 8, 7, 9, 11, or a plan. */
static enum refusal recovery_judge(const struct region *region, struct plan *plan)
{
	const struct pair pair = pair_of(region);

	if (pair_refusal(region, &pair) != ANSWERED)
		return pair_refusal(region, &pair);

	plan_begin(plan, &pair);
	if (pair.good[MIRROR] == 0)
		return recover_one(region, pair.block[PRIMARY], MIRROR, plan);
	if (pair.good[PRIMARY] == 0)
		return recover_one(region, pair.block[MIRROR], PRIMARY, plan);
	recover_both(region, &pair, plan);
	return ANSWERED;
}

/* ---- page images */

/* A page of a copy of a table: its part of the table, where "the rest of the last page is written FF"; "in OOB 14-17
 * its signature, and in OOB 18 its version"; in OOB 0-13 "images carry FF", "and in 19-63". */
static void page_lay_out(const struct region *region, const uint8_t *table, enum kind kind, uint8_t version,
			 size_t number, uint8_t *page)
{
	memset(page, 0xFF, PAGE);
	memcpy(page, table + number * DATA, part_len(region, number));
	memcpy(page + DATA + 14, signature[kind], 4);
	page[DATA + 18] = version;
}

/* "Steps are numbered from 0." "A step number past the plan's end, or of an erase": refusal 2, which comes
 * last. Document 02: "its zero step, like an erase, has no page image". */
static enum refusal page_image(const struct region *region, const struct plan *plan, uint64_t number, uint8_t *page)
{
	const struct step *step;

	if (number >= plan->count || plan->step[number].kind != WRITE)
		return OUT_OF_RANGE;
	step = &plan->step[number];
	page_lay_out(region, plan->table, step->copy, plan->version, step->page, page);
	return ANSWERED;
}

/* ---- the entries. Order of refusals: N and size, then lengths, then status bytes, then 8, 7, 9, then 10 or
 * 11, then what is met among the failed steps, and last the step's number. */

/* The first three of these. `others_fit`: are the lengths of the buffers beside image and status right? */
static enum refusal arguments_refusal(const struct region *region, size_t image_len, size_t status_len,
				      bool others_fit)
{
	if (!is_chip(region->n, region->size))
		return OUT_OF_RANGE;
	if (image_len != region->size * region->pages * PAGE || status_len != region->size * region->pages ||
	    !others_fit)
		return WRONG_LENGTH;
	if (has_bad_status(region))
		return OUT_OF_RANGE;
	return ANSWERED;
}

/* Document 02: "Planning and page images are lent what the first plan was made from and the failed steps' numbers, a
 * byte each, oldest first." */
struct failed {
	const uint8_t *number;
	size_t count;
};

/* Every refusal but that of a step's number, or the plan of an update. */
static enum refusal update_planned(const struct region *region, size_t image_len, size_t status_len,
				   bool others_fit, const uint8_t *wanted, struct failed failed, struct plan *plan)
{
	enum refusal refusal = arguments_refusal(region, image_len, status_len, others_fit);

	if (refusal == ANSWERED)
		refusal = update_judge(region, wanted, plan);
	if (refusal == ANSWERED)
		refusal = ref_plan_again(region, failed.number, failed.count, plan);
	return refusal;
}

/* The same of a recovery. */
static enum refusal recovery_planned(const struct region *region, size_t image_len, size_t status_len,
				     bool others_fit, struct failed failed, struct plan *plan)
{
	enum refusal refusal = arguments_refusal(region, image_len, status_len, others_fit);

	if (refusal == ANSWERED)
		refusal = recovery_judge(region, plan);
	if (refusal == ANSWERED)
		refusal = ref_plan_again(region, failed.number, failed.count, plan);
	return refusal;
}

/* A plan's steps, four bytes each, and its answer: version in bits 8-15, number of steps in bits 16-23. */
static uint64_t plan_write(const struct region *region, const struct plan *plan, uint8_t *steps)
{
	for (size_t i = 0; i < plan->count; i++) {
		const struct step *step = &plan->step[i];
		const uint64_t block = chip_block(region, step->block);

		steps[4 * i] = (uint8_t)step->kind;
		steps[4 * i + 1] = (uint8_t)(block / 256);
		steps[4 * i + 2] = (uint8_t)(block % 256);
		steps[4 * i + 3] = (uint8_t)step->page;
	}
	return (uint64_t)plan->version << 8 | (uint64_t)plan->count << 16;
}

/* "2N bytes, 2b and 2b + 1 for block b, and an entry is 00 when either is 0", otherwise 11. Block b stands "in bits
 * 2(b mod 4) and up of byte b/4". */
uint64_t ref_first_bitmap(uint64_t n, uint64_t size, const uint8_t *marks, size_t marks_len, uint8_t *bitmap,
			  size_t bitmap_len)
{
	if (!is_chip(n, size))
		return OUT_OF_RANGE;
	if (marks_len != 2 * n || bitmap_len != n / 4)
		return WRONG_LENGTH;

	for (size_t i = 0; i < n / 4; i++) {
		unsigned byte = 0;

		for (size_t k = 0; k < 4; k++) {
			const size_t b = 4 * i + k;

			if (marks[2 * b] != 0 && marks[2 * b + 1] != 0)
				byte |= 3u << 2 * k;
		}
		bitmap[i] = (uint8_t)byte;
	}
	return ANSWERED;
}

/* "Reading a settled pair gives its version and the chip block of each copy, and writes the bitmap." */
uint64_t ref_table_read(uint64_t n, uint64_t size, const uint8_t *image, size_t image_len, const uint8_t *status,
			size_t status_len, uint8_t *bitmap, size_t bitmap_len)
{
	const struct region region = { n, size, pages_of(n), image, status };
	enum refusal refusal = arguments_refusal(&region, image_len, status_len, bitmap_len == n / 4);
	struct pair pair;

	if (refusal != ANSWERED)
		return refusal;
	pair = pair_of(&region);
	refusal = pair_refusal(&region, &pair);
	if (refusal != ANSWERED)
		return refusal;
	if (!is_settled(&region, &pair))
		return NOT_SETTLED;

	table_copy(&region, pair.block[PRIMARY], bitmap);
	return (uint64_t)version_of(&region, pair.block[PRIMARY]) << 8 |
	       chip_block(&region, pair.block[PRIMARY]) << 16 | chip_block(&region, pair.block[MIRROR]) << 32;
}

uint64_t ref_update_plan(uint64_t n, uint64_t size, const uint8_t *image, size_t image_len, const uint8_t *status,
			 size_t status_len, const uint8_t *wanted, size_t wanted_len, const uint8_t *failed,
			 size_t failed_len, uint8_t *steps, size_t steps_len)
{
	const struct region region = { n, size, pages_of(n), image, status };
	const struct failed numbers = { failed, failed_len };
	const bool others_fit = wanted_len == n / 4 && steps_len == STEPS_LEN;
	struct plan plan;
	const enum refusal refusal = update_planned(&region, image_len, status_len, others_fit, wanted, numbers,
						    &plan);

	if (refusal != ANSWERED)
		return refusal;
	return plan_write(&region, &plan, steps);
}

uint64_t ref_recovery_plan(uint64_t n, uint64_t size, const uint8_t *image, size_t image_len, const uint8_t *status,
			   size_t status_len, const uint8_t *failed, size_t failed_len, uint8_t *steps,
			   size_t steps_len)
{
	const struct region region = { n, size, pages_of(n), image, status };
	const struct failed numbers = { failed, failed_len };
	struct plan plan;
	const enum refusal refusal = recovery_planned(&region, image_len, status_len, steps_len == STEPS_LEN, numbers,
						      &plan);

	if (refusal != ANSWERED)
		return refusal;
	return plan_write(&region, &plan, steps);
}

/* "Page images, 2,112 bytes each, are asked for by step number from the snapshot the plan was made from." */
uint64_t ref_update_page(uint64_t n, uint64_t size, const uint8_t *image, size_t image_len, const uint8_t *status,
			 size_t status_len, const uint8_t *wanted, size_t wanted_len, const uint8_t *failed,
			 size_t failed_len, uint64_t step, uint8_t *page, size_t page_len)
{
	const struct region region = { n, size, pages_of(n), image, status };
	const struct failed numbers = { failed, failed_len };
	const bool others_fit = wanted_len == n / 4 && page_len == PAGE;
	struct plan plan;
	const enum refusal refusal = update_planned(&region, image_len, status_len, others_fit, wanted, numbers,
						    &plan);

	if (refusal != ANSWERED)
		return refusal;
	return page_image(&region, &plan, step, page);
}

uint64_t ref_recovery_page(uint64_t n, uint64_t size, const uint8_t *image, size_t image_len, const uint8_t *status,
			   size_t status_len, const uint8_t *failed, size_t failed_len, uint64_t step,
			   uint8_t *page, size_t page_len)
{
	const struct region region = { n, size, pages_of(n), image, status };
	const struct failed numbers = { failed, failed_len };
	struct plan plan;
	const enum refusal refusal = recovery_planned(&region, image_len, status_len, page_len == PAGE, numbers,
						      &plan);

	if (refusal != ANSWERED)
		return refusal;
	return page_image(&region, &plan, step, page);
}

/* A page of any table. The documents do not ask for it by itself: the manual does, by a kind, 1 for a primary and 2 for
 * a mirror, a version, 0 to 255, and a number, 0 to P - 1. These are "other arguments", judged after lengths. */
uint64_t ref_table_page(uint64_t n, uint64_t size, const uint8_t *bitmap, size_t bitmap_len, uint64_t kind,
			uint64_t version, uint64_t number, uint8_t *page, size_t page_len)
{
	const struct region region = { n, size, pages_of(n), NULL, NULL };

	if (!is_chip(n, size))
		return OUT_OF_RANGE;
	if (bitmap_len != n / 4 || page_len != PAGE)
		return WRONG_LENGTH;
	if (kind < 1 || kind > 2 || version > 255 || number >= region.pages)
		return OUT_OF_RANGE;

	page_lay_out(&region, bitmap, kind == 1 ? PRIMARY : MIRROR, (uint8_t)version, (size_t)number, page);
	return ANSWERED;
}
