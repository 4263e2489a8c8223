/* A region of the large chip in memory. */
#include "region.h"

#include <string.h>

static const uint8_t signatures[KINDS][4] = {
	[PRIMARY] = { 0x42, 0x62, 0x74, 0x30 },
	[MIRROR] = { 0x31, 0x74, 0x62, 0x42 },
};

unsigned region_largest(uint64_t n)
{
	return n / 2 < MOST_REGION_BLOCKS ? (unsigned)(n / 2) : MOST_REGION_BLOCKS;
}

uint64_t region_first(const struct region *region)
{
	return region->n - region->size;
}

size_t region_image_len(const struct region *region)
{
	return (size_t)region->size * region->pages * PAGE_BYTES;
}

size_t region_status_len(const struct region *region)
{
	return (size_t)region->size * region->pages;
}

size_t region_part_len(const struct region *region, unsigned page)
{
	const size_t rest = (size_t)region->n / 4 - (size_t)page * PAGE_DATA;

	return rest < PAGE_DATA ? rest : PAGE_DATA;
}

const uint8_t *region_page(const struct region *region, unsigned block, unsigned page)
{
	return region->image + (size_t)(block * region->pages + page) * PAGE_BYTES;
}

bool region_reads_well(const struct region *region, unsigned block, unsigned page)
{
	return region->status[block * region->pages + page] == 0;
}

uint8_t *region_data(struct region *region, unsigned block, unsigned page)
{
	return region->image + (size_t)(block * region->pages + page) * PAGE_BYTES;
}

uint8_t *region_oob(struct region *region, unsigned block, unsigned page)
{
	return region_data(region, block, page) + PAGE_DATA;
}

uint8_t *region_status(struct region *region, unsigned block, unsigned page)
{
	return region->status + block * region->pages + page;
}

void region_begin(struct region *region, uint64_t n, unsigned size)
{
	region->n = n;
	region->size = size;
	region->pages = 1;
	while (region->pages * (uint64_t)PAGE_DATA < n / 4)
		region->pages++;
	for (unsigned block = 0; block < region->size; block++)
		region_erase(region, block);
}

void region_erase(struct region *region, unsigned block)
{
	memset(region_data(region, block, 0), 0xFF, (size_t)region->pages * PAGE_BYTES);
	memset(region_status(region, block, 0), 0, region->pages);
}

bool region_signed(const struct region *region, unsigned block, unsigned page, enum kind kind)
{
	return memcmp(region_page(region, block, page) + PAGE_DATA + SIGNATURE, signatures[kind], 4) == 0;
}

bool region_good(const struct region *region, unsigned block, enum kind kind)
{
	const uint8_t version = region_page(region, block, 0)[PAGE_DATA + VERSION];

	for (unsigned page = 0; page < region->pages; page++)
		if (!region_reads_well(region, block, page) || !region_signed(region, block, page, kind) ||
		    region_page(region, block, page)[PAGE_DATA + VERSION] != version)
			return false;
	return true;
}

unsigned region_zeros(const struct region *region, unsigned block)
{
	const uint8_t *oob = region_page(region, block, 0) + PAGE_DATA;
	unsigned zeros = 0;

	for (unsigned i = 0; i < PAGE_OOB; i++)
		zeros += oob[i] == 0;
	return zeros;
}

bool region_zeroed(const struct region *region, unsigned block)
{
	static const uint8_t zeros[PAGE_OOB];

	return memcmp(region_page(region, block, 0) + PAGE_DATA, zeros, PAGE_OOB) == 0;
}

bool region_bad(const struct region *region, unsigned block)
{
	const bool marked = region_reads_well(region, block, 0) && !region_signed(region, block, 0, PRIMARY) &&
			    !region_signed(region, block, 0, MIRROR) && region_page(region, block, 0)[PAGE_DATA] == 0;

	return marked || region_zeroed(region, block);
}

void region_sign(struct region *region, unsigned block, unsigned page, enum kind kind)
{
	memcpy(region_oob(region, block, page) + SIGNATURE, signatures[kind], 4);
}

void region_lay_out(const struct region *region, unsigned page, enum kind kind, uint8_t version,
		    const uint8_t *table, uint8_t *bytes)
{
	memset(bytes, 0xFF, PAGE_BYTES);
	memcpy(bytes, table + (size_t)page * PAGE_DATA, region_part_len(region, page));
	memcpy(bytes + PAGE_DATA + SIGNATURE, signatures[kind], 4);
	bytes[PAGE_DATA + VERSION] = version;
}

void region_write(struct region *region, unsigned block, unsigned page, enum kind kind, uint8_t version,
		  const uint8_t *table)
{
	region_lay_out(region, page, kind, version, table, region_data(region, block, page));
	*region_status(region, block, page) = 0;
}

void region_copy(struct region *region, unsigned block, enum kind kind, uint8_t version, const uint8_t *table)
{
	region_erase(region, block);
	for (unsigned page = 0; page < region->pages; page++)
		region_write(region, block, page, kind, version, table);
}
