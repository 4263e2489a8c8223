/* What the host programs draw of a region. */
#include "drawn.h"

#include <string.h>

#include "draw.h"
#include "reamsickle.h"

unsigned drawn_size(uint64_t *state, uint64_t n)
{
	const unsigned sizes = region_largest(n) - FEWEST_REGION_BLOCKS + 1;

	return FEWEST_REGION_BLOCKS + (unsigned)draw_below(state, sizes);
}

void drawn_table(uint64_t *state, uint8_t *table, uint64_t n)
{
	if (draw_below(state, 4) == 0) {
		draw_bytes(state, table, (size_t)n / 4);
		return;
	}
	memset(table, 0xFF, (size_t)n / 4);
	for (uint64_t i = draw_below(state, 8); i > 0; i--) {
		const unsigned entry = (unsigned)draw_below(state, 4);

		ream_entry_set(table, draw_below(state, n), entry);
	}
}

enum way drawn_way(uint64_t *state, unsigned pages)
{
	return (enum way)draw_below(state, pages == 1 ? OTHER_SIGNATURE : WAYS);
}

void drawn_spoil(uint64_t *state, struct region *region, unsigned block, unsigned page, enum kind kind,
		 enum way way)
{
	uint8_t *oob = region_oob(region, block, page);
	uint64_t bit;

	switch (way) {
	case UNREADABLE:
		*region_status(region, block, page) = 1;
		break;
	case BLANKED:
		memset(region_data(region, block, page), 0xFF, PAGE_BYTES);
		break;
	case WRONG_SIGNATURE:
		bit = draw_below(state, 8);
		oob[SIGNATURE + draw_below(state, 4)] ^= (uint8_t)(1 << bit);
		break;
	case OTHER_SIGNATURE:
		region_sign(region, block, page, kind == PRIMARY ? MIRROR : PRIMARY);
		break;
	case OTHER_VERSION:
		oob[VERSION] ^= (uint8_t)(1 + draw_below(state, 255));
		break;
	case WAYS:
		break;
	}
}

/* The same of an unreadable page. 64 zero OOB bytes of a first page count, and stay. */
static void stir_unreadable(uint64_t *state, struct region *region, unsigned block, unsigned page)
{
	const bool counts = page == 0 && region_zeroed(region, block);

	draw_bytes(state, region_data(region, block, page), counts ? PAGE_DATA : PAGE_BYTES);
}

/* The same of one page. */
static void stir_page(uint64_t *state, struct region *region, unsigned block, unsigned page)
{
	uint8_t *data = region_data(region, block, page);
	uint8_t *oob = region_oob(region, block, page);
	const size_t part = region_part_len(region, page);

	if (*region_status(region, block, page) == 1) {
		stir_unreadable(state, region, block, page);
		return;
	}
	draw_bytes(state, data + part, PAGE_DATA - part);
	draw_bytes(state, oob + 1, SIGNATURE - 1);
	draw_bytes(state, oob + VERSION + 1, PAGE_OOB - VERSION - 1);
	if (page > 0)
		oob[0] = (uint8_t)draw(state);
	else if (oob[0] != 0)
		oob[0] = (uint8_t)(1 + draw_below(state, 255));
}

void drawn_stir(uint64_t *state, struct region *region)
{
	for (unsigned block = 0; block < region->size; block++)
		for (unsigned page = 0; page < region->pages; page++)
			stir_page(state, region, block, page);
}
