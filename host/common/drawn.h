/*
 * What the host programs draw of a region: its size, tables, pages of a copy that are spoilt, and the bytes that
 * must not count. `state` is that of draw().
 */
#ifndef DRAWN_H
#define DRAWN_H

#include <stdint.h>

#include "region.h"

/* How a page is spoilt. The last two are for copies of several pages: they turn a single page into a good
 * copy of another kind or version. */
enum way { UNREADABLE, BLANKED, WRONG_SIGNATURE, OTHER_SIGNATURE, OTHER_VERSION, WAYS };

/* A size that the region of a chip of n blocks can have. */
unsigned drawn_size(uint64_t *state, uint64_t n);

/* A bitmap of which most entries are good, as in a chip's life; one in four is anything. */
void drawn_table(uint64_t *state, uint8_t *table, uint64_t n);

/* A way to spoil a page of a copy of so many pages, after which the copy is not good. */
enum way drawn_way(uint64_t *state, unsigned pages);

/* Spoils a page of a copy of a kind. */
void drawn_spoil(uint64_t *state, struct region *region, unsigned block, unsigned page, enum kind kind,
		 enum way way);

/* Draws anew every byte of the region that must not count. */
void drawn_stir(uint64_t *state, struct region *region);

#endif
