/* What a block of the region holds, for a person to see. */
#ifndef LOOK_H
#define LOOK_H

#include <stdint.h>

#include "json.h"
#include "region.h"

/* A page. Of the marks only that of a block readable as bad is told, on its first page: 0 in OOB 0, or 64 zero OOB
 * bytes, as a zero step leaves them, on an unreadable page too. */
enum page_look {
	PAGE_PRIMARY,
	PAGE_MIRROR,
	PAGE_ERASED,
	PAGE_UNREADABLE,
	PAGE_BAD,
	PAGE_RETIRED,
	PAGE_OTHER,
	PAGE_LOOKS,
};

/* A block. It is partly written if each of its pages is of a copy, erased or unreadable, but not all alike. */
enum block_look {
	BLOCK_PRIMARY,		/* a good one */
	BLOCK_MIRROR,
	BLOCK_ERASED,
	BLOCK_UNREADABLE,
	BLOCK_BAD,		/* readable as bad, by a mark in OOB 0 */
	BLOCK_RETIRED,		/* the same, by 64 zero OOB bytes */
	BLOCK_PARTLY,
	BLOCK_OTHER,
};

struct look {
	enum block_look block;
	unsigned pages;
	enum page_look page[MOST_PAGES];
	uint8_t version[MOST_PAGES];	/* of pages of a copy */
};

/* The room for the words. */
enum { LOOK_LEN = 24 };

struct look look_at(const struct region *region, unsigned block);

/* A letter for a page, as the words of a block that is partly written have it: P, M, -, x, B, R or ?. */
char look_letter(enum page_look page);

/* A block in words: "primary v5", "partly PP-x", "bad (retired)". In brief, at most 11 letters, a copy has its version
 * alone after its kind, and a block readable as bad one word: "primary 5", "retired". In letters, at most 4, a copy
 * has one before its version, "P5", and any other block one for each page: "PP-x", "----". */
void look_words(const struct look *look, char words[LOOK_LEN]);
void look_brief(const struct look *look, char words[LOOK_LEN]);
void look_letters(const struct look *look, char words[LOOK_LEN]);

/* Tells what each block of the region holds. */
void look_print_region(const struct region *region);
void look_write_region(struct json *json, const struct region *region);

#endif
