/* A chip on a rig that cuts its power and lets its steps fail. */
#include "rig.h"

#include <string.h>

#include "draw.h"
#include "drawn.h"

enum { CHIPS = 4 };

/* Numbers of blocks for each P: the ends of its range, and two between. The smallest that allows each size of the
 * region is among them. */
static const uint64_t chips[MOST_PAGES][CHIPS] = {
	{ 8, 12, 16, 8192 },
	{ 8196, 12000, 16380, 16384 },
	{ 16388, 20000, 24572, 24576 },
	{ 24580, 30000, 32764, 32768 },
};

/* Bytes that may be anything: all FF, all 00, or drawn. */
static void fill(uint64_t *state, uint8_t *bytes, size_t len)
{
	switch (draw_below(state, 3)) {
	case 0:
		memset(bytes, 0xFF, len);
		break;
	case 1:
		memset(bytes, 0, len);
		break;
	default:
		draw_bytes(state, bytes, len);
		break;
	}
}

/* One of the OOB bytes of a block's first page made another than 0: at either end, or anywhere. */
static void spoil_zeros(uint64_t *state, struct region *region, unsigned block)
{
	const uint64_t place = draw_below(state, 3 * PAGE_OOB);
	uint8_t *oob = region_oob(region, block, 0);
	const uint8_t byte = (uint8_t)(1 + draw_below(state, 255));

	if (place < PAGE_OOB)
		oob[place] = byte;
	else
		oob[place < 2 * PAGE_OOB ? 0 : PAGE_OOB - 1] = byte;
}

/* ---- starts */

uint8_t rig_version(uint64_t *state)
{
	static const uint8_t versions[] = { 0, 1, 127, 128, 254, 255 };

	if (draw_below(state, 2) == 0)
		return (uint8_t)draw(state);
	return versions[draw_below(state, sizeof(versions))];
}

/* The version of a copy beside a pair: the pair's, one about it, the opposite one, or any. */
static uint8_t draw_other_version(uint64_t *state, uint8_t version)
{
	static const uint8_t ahead[] = { 0, 1, 255, 128 };

	if (draw_below(state, 3) == 0)
		return (uint8_t)draw(state);
	return (uint8_t)(version + ahead[draw_below(state, sizeof(ahead))]);
}

static void fill_half(uint64_t *state, struct region *region, unsigned block, enum kind kind,
		      const struct start *start, const uint8_t *table)
{
	const unsigned spoilt = (unsigned)draw_below(state, region->pages);
	uint8_t other[MOST_BITMAP];
	const uint8_t *written;

	drawn_table(state, other, region->n);
	written = draw_below(state, 2) == 0 ? table : other;
	region_copy(region, block, kind, draw_other_version(state, start->version), written);
	for (unsigned page = 0; page < region->pages; page++)
		if (page == spoilt || draw_below(state, 3) == 0)
			drawn_spoil(state, region, block, page, kind, drawn_way(state, region->pages));
}

/* Every page of a block unreadable, over the bytes of a good copy or over anything. */
static void fill_unreadable(uint64_t *state, struct region *region, unsigned block, const struct start *start,
			    const uint8_t *table)
{
	region_copy(region, block, (enum kind)draw_below(state, KINDS), start->version, table);
	for (unsigned page = 0; page < region->pages; page++) {
		if (draw_below(state, 2) == 0)
			fill(state, region_data(region, block, page), PAGE_BYTES);
		*region_status(region, block, page) = 1;
	}
}

/* A mark and no signature on the first page; the other pages are blank, or those of a copy. */
static void fill_bad(uint64_t *state, struct region *region, unsigned block, const struct start *start,
		     const uint8_t *table)
{
	uint8_t *oob = region_oob(region, block, 0);

	if (draw_below(state, 2) == 0)
		region_copy(region, block, (enum kind)draw_below(state, KINDS), start->version, table);
	fill(state, oob, PAGE_OOB);
	memset(oob, 0, SIGNATURE + 1);
}

/* The OOB of the first page all zeros, or all but one byte. The rest is blank, or that of a copy. */
static void fill_zeroed(uint64_t *state, struct region *region, unsigned block, const struct start *start,
			const uint8_t *table)
{
	region_erase(region, block);
	if (draw_below(state, 2) == 0)
		region_copy(region, block, (enum kind)draw_below(state, KINDS), start->version, table);
	rig_zero(state, region, block);
	*region_status(region, block, 0) = start->filling[block] != FILLED_ZEROED;
	if (start->filling[block] == FILLED_NEARLY_ZEROED)
		spoil_zeros(state, region, block);
}

/* At least one page is blank. The others have anything in OOB 0-13. */
static void fill_stray(uint64_t *state, struct region *region, unsigned block, const struct start *start,
		       const uint8_t *table)
{
	const unsigned blank = (unsigned)draw_below(state, region->pages);

	for (unsigned page = 0; page < region->pages; page++) {
		const enum kind kind = (enum kind)draw_below(state, KINDS);

		if (page == blank || draw_below(state, 3) == 0)
			continue;
		region_write(region, block, page, kind, draw_other_version(state, start->version), table);
		fill(state, region_oob(region, block, page), SIGNATURE);
	}
}

static void fill_block(uint64_t *state, struct region *region, unsigned block, const struct start *start,
		       const uint8_t *table)
{
	switch (start->filling[block]) {
	case FILLED_PAIR:
		region_copy(region, block, block == start->block[PRIMARY] ? PRIMARY : MIRROR, start->version, table);
		break;
	case FILLED_BLANK:
		break;
	case FILLED_SENSELESS:
		for (unsigned page = 0; page < region->pages; page++)
			fill(state, region_data(region, block, page), PAGE_BYTES);
		break;
	case FILLED_BAD:
		fill_bad(state, region, block, start, table);
		break;
	case FILLED_UNREADABLE:
		fill_unreadable(state, region, block, start, table);
		break;
	case FILLED_HALF_PRIMARY:
		fill_half(state, region, block, PRIMARY, start, table);
		break;
	case FILLED_HALF_MIRROR:
		fill_half(state, region, block, MIRROR, start, table);
		break;
	case FILLED_STRAY:
		fill_stray(state, region, block, start, table);
		break;
	case FILLED_ZEROED:
	case FILLED_ZEROED_UNREADABLE:
	case FILLED_NEARLY_ZEROED:
	case FILLINGS:
		break;
	}
}

/* The blocks that show zeros, once nothing else is drawn in them. An unreadable block that shows 64 zeros by chance is
 * named for it. */
static void fill_zeros(uint64_t *state, struct region *region, struct start *start, const uint8_t *table)
{
	for (unsigned block = 0; block < start->size; block++) {
		if (start->filling[block] >= FILLED_ZEROED && start->filling[block] <= FILLED_NEARLY_ZEROED)
			fill_zeroed(state, region, block, start, table);
		if (start->filling[block] == FILLED_UNREADABLE && region_zeroed(region, block))
			start->filling[block] = FILLED_ZEROED_UNREADABLE;
	}
}

/* Where the pair stands, with the first so many of the fillings in the blocks beside it. */
static void draw_start(uint64_t *state, uint64_t n, unsigned size, unsigned fillings, struct start *start)
{
	start->n = n;
	start->size = size;
	start->version = rig_version(state);
	start->block[PRIMARY] = (unsigned)draw_below(state, size);
	start->block[MIRROR] = (start->block[PRIMARY] + 1 + (unsigned)draw_below(state, size - 1)) % size;
	for (unsigned block = 0; block < size; block++)
		start->filling[block] = (enum filling)(1 + draw_below(state, fillings - 1));
	start->filling[start->block[PRIMARY]] = start->filling[start->block[MIRROR]] = FILLED_PAIR;
}

/* Blank blocks in place of those that are readable as bad, so that many steps can fail. */
static void spare_bad(struct start *start)
{
	for (unsigned block = 0; block < start->size; block++) {
		const enum filling filling = start->filling[block];

		if (filling == FILLED_BAD || filling == FILLED_ZEROED || filling == FILLED_ZEROED_UNREADABLE)
			start->filling[block] = FILLED_BLANK;
	}
}

/* The blocks of a start, but for those that show zeros, once a table is drawn. */
static void fill_blocks(uint64_t *state, const struct start *start, struct region *region, uint8_t *table)
{
	drawn_table(state, table, start->n);
	region_begin(region, start->n, start->size);
	for (unsigned block = 0; block < start->size; block++)
		fill_block(state, region, block, start, table);
	if (draw_below(state, 2) == 0)
		drawn_stir(state, region);
}

/* The region of a start with a pair. */
static void fill_region(uint64_t *state, struct start *start, struct region *region)
{
	uint8_t table[MOST_BITMAP];

	fill_blocks(state, start, region, table);
	for (unsigned kind = 0; kind < KINDS; kind++)
		for (unsigned page = 0; page < region->pages; page++)
			fill(state, region_oob(region, start->block[kind], page), SIGNATURE);
	fill_zeros(state, region, start, table);
}

/* A number of blocks that a chip can have. */
static uint64_t draw_chip(uint64_t *state)
{
	const uint64_t *of_pages = chips[draw_below(state, MOST_PAGES)];

	return of_pages[draw_below(state, CHIPS)];
}

void rig_start(uint64_t *state, struct start *start, struct region *region)
{
	const uint64_t n = draw_chip(state);

	draw_start(state, n, drawn_size(state, n), FILLED_NEARLY_ZEROED + 1, start);
	if (draw_below(state, 2) == 0)
		spare_bad(start);
	fill_region(state, start, region);
}

void rig_start_on(uint64_t *state, uint64_t n, unsigned size, struct start *start, struct region *region)
{
	draw_start(state, n, size, FILLED_HALF_MIRROR + 1, start);
	fill_region(state, start, region);
}

/* What stands in the blocks where there is no pair: in so many of them, from a drawn one on, that they are bad. */
static void draw_bare(uint64_t *state, struct start *start)
{
	static const enum filling bad[] = { FILLED_BAD, FILLED_ZEROED, FILLED_ZEROED_UNREADABLE };
	const unsigned first = (unsigned)draw_below(state, start->size);
	const unsigned count = (unsigned)draw_below(state, start->size + 1);

	for (unsigned block = 0; block < start->size; block++)
		start->filling[block] = (enum filling)(1 + draw_below(state, FILLINGS - 1));
	spare_bad(start);
	for (unsigned i = 0; i < count; i++)
		start->filling[(first + i) % start->size] = bad[draw_below(state, 3)];
}

void rig_start_bare(uint64_t *state, struct start *start, struct region *region, uint8_t *table)
{
	start->n = draw_chip(state);
	start->size = drawn_size(state, start->n);
	start->version = rig_version(state);
	draw_bare(state, start);
	fill_blocks(state, start, region, table);
	fill_zeros(state, region, start, table);
	for (unsigned block = 0; block < start->size; block++)
		if (start->filling[block] == FILLED_STRAY && region->pages == 1)
			start->filling[block] = FILLED_BLANK;
}

/* ---- steps */

static void set_blank(struct region *region, unsigned block, unsigned page)
{
	memset(region_data(region, block, page), 0xFF, PAGE_BYTES);
	*region_status(region, block, page) = 0;
}

/* An unreadable page, over what it held or over anything. */
static void set_any_unreadable(uint64_t *state, struct region *region, unsigned block, unsigned page)
{
	if (draw_below(state, 2) == 0)
		fill(state, region_data(region, block, page), PAGE_BYTES);
	*region_status(region, block, page) = 1;
}

/* The same by the premise: a first page shows at least one OOB byte that is not 0. */
static void set_unreadable(uint64_t *state, struct region *region, unsigned block, unsigned page)
{
	set_any_unreadable(state, region, block, page);
	if (page == 0 && region_zeroed(region, block))
		spoil_zeros(state, region, block);
}

void rig_write(uint64_t *state, struct region *region, unsigned block, unsigned page, const uint8_t *image)
{
	memcpy(region_data(region, block, page), image, PAGE_BYTES);
	fill(state, region_oob(region, block, page), SIGNATURE);
	*region_status(region, block, page) = 0;
}

void rig_zero(uint64_t *state, struct region *region, unsigned block)
{
	if (draw_below(state, 2) == 0)
		fill(state, region_data(region, block, 0), PAGE_DATA);
	memset(region_oob(region, block, 0), 0, PAGE_OOB);
	*region_status(region, block, 0) = (uint8_t)draw_below(state, 2);
}

void rig_cut_erase(uint64_t *state, struct region *region, unsigned block, enum left left[MOST_PAGES])
{
	static const enum left choices[] = { LEFT_AS_IT_WAS, LEFT_BLANK, LEFT_UNREADABLE };

	for (unsigned page = 0; page < region->pages; page++) {
		left[page] = choices[draw_below(state, 3)];
		if (left[page] == LEFT_BLANK)
			set_blank(region, block, page);
		if (left[page] == LEFT_UNREADABLE)
			set_unreadable(state, region, block, page);
	}
}

enum left rig_cut_write(uint64_t *state, struct region *region, unsigned block, unsigned page,
			const uint8_t *image)
{
	static const enum left choices[] = { LEFT_BLANK, LEFT_COMPLETE, LEFT_UNREADABLE };
	const enum left left = choices[draw_below(state, 3)];

	if (left == LEFT_BLANK) {
		set_blank(region, block, page);
		return left;
	}
	if (left == LEFT_COMPLETE || draw_below(state, 2) == 0)
		rig_write(state, region, block, page, image);
	if (left == LEFT_UNREADABLE)
		set_unreadable(state, region, block, page);
	return left;
}

enum left rig_cut_zero(uint64_t *state, struct region *region, unsigned block)
{
	static const enum left choices[] = { LEFT_AS_IT_WAS, LEFT_ZEROED, LEFT_UNREADABLE };
	const enum left left = choices[draw_below(state, 3)];

	if (left == LEFT_ZEROED)
		rig_zero(state, region, block);
	if (left != LEFT_UNREADABLE)
		return left;
	set_any_unreadable(state, region, block, 0);
	if (draw_below(state, 2) == 0)
		memset(region_oob(region, block, 0), 0, PAGE_OOB);
	if (region_zeroed(region, block) && draw_below(state, 4) == 0)
		spoil_zeros(state, region, block);
	return left;
}
