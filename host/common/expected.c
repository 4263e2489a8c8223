/* The plan that the documents ask for. */
#include "expected.h"

#include <string.h>

enum { ERASE_STEP = 0, WRITE_STEP = 1, ZERO_STEP = 2 };	/* the kinds of step, as they are told */

enum { PAST_END = 2, NO_TARGET = 11, ZERO_FAILED = 12 };	/* the refusals of failed steps */

/* A plan with no step, from what the region holds. */
static void begin(struct expected *expected, const struct region *region, uint8_t version)
{
	memset(expected, 0, sizeof(*expected));
	expected->version = version;
	for (unsigned block = 0; block < region->size; block++)
		expected->bad[block] = region_bad(region, block);
}

static void add_copy(struct expected *expected, enum kind kind, unsigned block)
{
	expected->copy[expected->copies++] = (struct placed){ kind, block };
}

/* "the highest block that is neither the other copy's, readable as bad nor failed" */
static bool find_target(const struct expected *expected, const struct region *region, unsigned other,
			unsigned *target)
{
	bool found = false;

	for (unsigned block = 0; block < region->size; block++) {
		if (block == other || expected->bad[block] || expected->failed[block])
			continue;
		*target = block;
		found = true;
	}
	return found;
}

/* ---- first plans */

/* "erase the primary's block, write its P pages, erase the mirror's block, write its P pages" */
void expected_update(struct expected *expected, const struct region *region, const unsigned block[KINDS],
		     uint8_t version, bool changes)
{
	begin(expected, region, version);
	if (!changes)
		return;
	add_copy(expected, PRIMARY, block[PRIMARY]);
	add_copy(expected, MIRROR, block[MIRROR]);
}

/* The number of good copies of a kind, and the block of the last one. */
static unsigned find_good(const struct region *region, enum kind kind, unsigned *block)
{
	unsigned count = 0;

	for (unsigned i = 0; i < region->size; i++) {
		if (region_good(region, i, kind)) {
			*block = i;
			count++;
		}
	}
	return count;
}

static uint8_t version_of(const struct region *region, unsigned block)
{
	return region_page(region, block, 0)[PAGE_DATA + VERSION];
}

static bool same_bitmaps(const struct region *region, unsigned left, unsigned right)
{
	for (unsigned page = 0; page < region->pages; page++)
		if (memcmp(region_page(region, left, page), region_page(region, right, page),
			   region_part_len(region, page)) != 0)
			return false;
	return true;
}

/* "Both good": nothing to do, or the older copy is written anew where it is. */
static bool recover_older(struct expected *expected, const struct region *region, const unsigned block[KINDS])
{
	const uint8_t ahead = (uint8_t)(version_of(region, block[PRIMARY]) - version_of(region, block[MIRROR]));
	const enum kind newer = ahead < 128 ? PRIMARY : MIRROR, older = ahead < 128 ? MIRROR : PRIMARY;

	begin(expected, region, version_of(region, block[newer]));
	if (ahead == 0)
		return same_bitmaps(region, block[PRIMARY], block[MIRROR]);
	if (ahead == 128)
		return false;
	add_copy(expected, older, block[older]);
	expected->other = block[newer];
	return true;
}

/* "Only one kind good": the other is written to "the highest block that is neither the good one's nor readable as
 * bad". */
static bool recover_missing(struct expected *expected, const struct region *region, enum kind missing, unsigned good)
{
	unsigned target;

	begin(expected, region, version_of(region, good));
	if (!find_target(expected, region, good, &target))
		return false;
	add_copy(expected, missing, target);
	expected->other = good;
	return true;
}

bool expected_recovery(struct expected *expected, const struct region *region)
{
	unsigned block[KINDS];
	const unsigned primaries = find_good(region, PRIMARY, &block[PRIMARY]);
	const unsigned mirrors = find_good(region, MIRROR, &block[MIRROR]);

	if (primaries > 1 || mirrors > 1 || primaries + mirrors == 0)
		return false;
	if (primaries == 0)
		return recover_missing(expected, region, PRIMARY, block[MIRROR]);
	if (mirrors == 0)
		return recover_missing(expected, region, MIRROR, block[PRIMARY]);
	return recover_older(expected, region, block);
}

/* ---- steps by their numbers: a zero step, if there is one, and then for each copy its erase and its P pages */

static unsigned zero_steps(const struct expected *expected)
{
	return expected->zeroes ? 1 : 0;
}

unsigned expected_count(const struct expected *expected, const struct region *region)
{
	return zero_steps(expected) + expected->copies * (region->pages + 1);
}

bool expected_write(const struct expected *expected, const struct region *region, unsigned number, enum kind *kind,
		    unsigned *page)
{
	const unsigned steps = region->pages + 1, zeros = zero_steps(expected);

	if (number < zeros || number >= expected_count(expected, region) || (number - zeros) % steps == 0)
		return false;
	*kind = expected->copy[(number - zeros) / steps].kind;
	*page = (number - zeros) % steps - 1;
	return true;
}

/* ---- failed steps */

/* "The plan then becomes: write zeros to all 64 OOB bytes of that block's first page, then that copy's erase and all
 * its pages at the highest block that is neither the other copy's, readable as bad nor failed, then the other copy's
 * steps if still to come." */
unsigned expected_failed(struct expected *expected, const struct region *region, unsigned number)
{
	unsigned place, other, target;
	struct placed copy;

	if (number >= expected_count(expected, region))
		return PAST_END;
	if (expected->zeroes && number == 0)
		return ZERO_FAILED;
	place = (number - zero_steps(expected)) / (region->pages + 1);
	copy = expected->copy[place];
	other = expected->copies == 2 ? expected->copy[1 - place].block : expected->other;
	expected->failed[copy.block] = true;
	if (!find_target(expected, region, other, &target))
		return NO_TARGET;
	expected->zeroes = true;
	expected->zeroed = copy.block;
	expected->copies -= place;
	expected->copy[0] = (struct placed){ copy.kind, target };
	expected->other = other;
	return 0;
}

/* ---- as it is told */

static uint8_t *tell(uint8_t *at, const struct region *region, unsigned kind, unsigned block, unsigned page)
{
	const uint64_t chip_block = region_first(region) + block;

	*at++ = (uint8_t)kind;
	*at++ = (uint8_t)(chip_block / 256);
	*at++ = (uint8_t)(chip_block % 256);
	*at++ = (uint8_t)page;
	return at;
}

void expected_steps(const struct expected *expected, const struct region *region, uint8_t steps[EXPECTED_BYTES])
{
	if (expected->zeroes)
		steps = tell(steps, region, ZERO_STEP, expected->zeroed, 0);
	for (unsigned i = 0; i < expected->copies; i++) {
		steps = tell(steps, region, ERASE_STEP, expected->copy[i].block, 0);
		for (unsigned page = 0; page < region->pages; page++)
			steps = tell(steps, region, WRITE_STEP, expected->copy[i].block, page);
	}
}
