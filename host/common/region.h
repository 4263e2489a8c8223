/*
 * A region of the large chip in memory, laid out as document 01 has it, for the host programs to lend.
 * Blocks are counted from 0 for the region's lowest to size - 1, pages from 0 to P - 1.
 */
#ifndef REGION_H
#define REGION_H

#include <stdbool.h>
#include <stddef.h>
#include <stdint.h>

enum {
	FEWEST_REGION_BLOCKS = 4,	/* the smallest size of the region, which every chip can have */
	MOST_REGION_BLOCKS = 7,		/* the largest */
	PAGE_DATA = 2048,
	PAGE_OOB = 64,
	PAGE_BYTES = PAGE_DATA + PAGE_OOB,
	MOST_BLOCKS = 32768,	/* the largest N */
	MOST_BITMAP = 8192,	/* its N/4 */
	MOST_PAGES = 4,		/* its P */
	SIGNATURE = 14,		/* the first OOB byte of the signature, which has four */
	VERSION = 18,		/* the OOB byte of the version */
};

/* The two kinds of a copy of the table. */
enum kind { PRIMARY, MIRROR, KINDS };

struct region {
	uint64_t n;		/* the chip's blocks, N */
	unsigned size;		/* blocks of the region */
	unsigned pages;		/* P */
	uint8_t image[MOST_REGION_BLOCKS * MOST_PAGES * PAGE_BYTES];
	uint8_t status[MOST_REGION_BLOCKS * MOST_PAGES];
};

/* The largest size of the region on a chip of n blocks: at most half of them are its own. */
unsigned region_largest(uint64_t n);

/* The chip block of its lowest block. */
uint64_t region_first(const struct region *region);

/* How many bytes of image and status are lent. */
size_t region_image_len(const struct region *region);
size_t region_status_len(const struct region *region);

/* How many bytes of the bitmap a page holds. */
size_t region_part_len(const struct region *region, unsigned page);

/* A page's 2,112 bytes as they are. */
const uint8_t *region_page(const struct region *region, unsigned block, unsigned page);

bool region_reads_well(const struct region *region, unsigned block, unsigned page);

/* A page's data, its OOB and its status byte. */
uint8_t *region_data(struct region *region, unsigned block, unsigned page);
uint8_t *region_oob(struct region *region, unsigned block, unsigned page);
uint8_t *region_status(struct region *region, unsigned block, unsigned page);

/* A region of `size` blocks on a chip with n blocks, every page blank. */
void region_begin(struct region *region, uint64_t n, unsigned size);

/* Makes all pages of a block blank. */
void region_erase(struct region *region, unsigned block);

/* Does a page carry the signature of a kind? */
bool region_signed(const struct region *region, unsigned block, unsigned page, enum kind kind);

/* How many OOB bytes of a block's first page are 0? All 64? */
unsigned region_zeros(const struct region *region, unsigned block);
bool region_zeroed(const struct region *region, unsigned block);

/* The documents' words: is a block a good copy of a kind? Is it readable as bad? */
bool region_good(const struct region *region, unsigned block, enum kind kind);
bool region_bad(const struct region *region, unsigned block);

/* Sets the signature of a page. */
void region_sign(struct region *region, unsigned block, unsigned page, enum kind kind);

/* The 2,112 bytes of a page of a copy of `table`, an array of N/4 bytes, with FF where nothing is set down. */
void region_lay_out(const struct region *region, unsigned page, enum kind kind, uint8_t version,
		    const uint8_t *table, uint8_t *bytes);

/* Writes such a page. */
void region_write(struct region *region, unsigned block, unsigned page, enum kind kind, uint8_t version,
		  const uint8_t *table);

/* Erases a block and writes all pages of a copy there. */
void region_copy(struct region *region, unsigned block, enum kind kind, uint8_t version, const uint8_t *table);

#endif
