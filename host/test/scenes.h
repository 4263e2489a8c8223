/*
 * Regions made to order. A cast says what each block of a region is to be and how the two kinds' versions and
 * tables stand to each other. scene_build() makes such a region, with the bytes that are left open drawn.
 */
#ifndef SCENES_H
#define SCENES_H

#include <stdbool.h>
#include <stdint.h>

#include "calls.h"
#include "drawn.h"
#include "region.h"

/* What a block is to be: a good copy, readable as bad, or neither. */
enum role {
	GOOD_PRIMARY,
	GOOD_MIRROR,
	MARKED_PRIMARY,		/* good too: a mark beside a signature does not count */
	MARKED,			/* readable as bad, by its mark or by 64 zeros */
	BLANK,
	MARKED_UNREADABLE,	/* a mark, or fewer zeros, on an unreadable first page: not readable as bad */
	MARKED_LATER,		/* marks, or 64 zeros, on the pages past the first: they do not count */
	SPOILT_PRIMARY,		/* a copy with one page spoilt */
	SPOILT_MIRROR,
	ROLES,
};

/* A chip: its number of blocks, N, and how many of them are the region. */
struct chip {
	uint64_t n;
	unsigned size;
};

struct cast {
	struct chip chip;
	enum role role[MOST_REGION_BLOCKS];
	uint8_t version[KINDS];
	bool equal;		/* do both kinds hold the same table? */
	unsigned page;		/* the page of spoilt copies that is spoilt */
	enum way way;		/* and how */
};

/* Is there a chip of n blocks with a region of `size` blocks? "N a multiple of 4 from 8 to 32,768"; "the region's
 * size, 4 to 7 blocks"; "refusal 2 outside these or with N below twice it". */
bool is_chip(uint64_t n, uint64_t size);

/* Chips at which something changes: the ends of the range of N, P from 1 to 4, and the sizes of the region. */
enum { CHIPS = 24 };

extern const struct chip chips[CHIPS];

/* One for each P and each size of the region, sorted by P, with last pages full, almost full and almost empty. */
enum { REGION_SIZES = MOST_REGION_BLOCKS - FEWEST_REGION_BLOCKS + 1, SHAPES = MOST_PAGES * REGION_SIZES };

extern const struct chip shapes[SHAPES];

/* Numbers that are no number of blocks, and such that are no size of a region. */
enum { NO_NUMBERS = 39, NO_SIZES = 20 };

extern const uint64_t no_numbers[NO_NUMBERS];
extern const uint64_t no_sizes[NO_SIZES];

/* The entries that read a table, plan and give pages. */
enum { REGION_ENTRIES = 5 };

extern const enum entry_index region_entries[REGION_ENTRIES];

/* Casts that are refused each in its way, and one that is not. */
enum { TROUBLES = 12 };

/* Room for lists of failed steps. */
enum { MOST_FAILED = 1024 };

/* What the large chip's entries are lent, and the tables in it. */
struct scene {
	struct region region;
	uint8_t wanted[MOST_BITMAP];
	uint8_t marks[2 * MOST_BLOCKS];
	uint8_t table[KINDS][MOST_BITMAP];	/* what the copies of each kind hold */
	uint8_t made[MOST_BITMAP];		/* what a plan has to make of them */
	uint8_t failed[MOST_FAILED];		/* the steps that failed */
	size_t failed_len;
	uint64_t step;				/* the step whose page is asked for */
	uint64_t kind, version, place;		/* the page of a copy of `wanted` that is asked for without a plan */
};

/* One of the chips with so many pages to a copy, drawn. */
struct chip drawn_shape(struct test *test, unsigned pages);

/* A chip of n blocks, with the size of its region drawn. */
struct chip drawn_chip(struct test *test, uint64_t n);

/* A cast of a settled pair in these blocks, the others blank. */
struct cast cast_settled(struct chip chip, unsigned primary, unsigned mirror, uint8_t version);

/* How many pairs of different blocks there are for primary and mirror. */
unsigned placements(struct chip chip);

/* A cast of a settled pair in pair i of blocks, counted round and round. */
struct cast cast_placed(struct chip chip, unsigned i, uint8_t version);

struct cast cast_troubled(struct chip chip, unsigned trouble);

/* Draws a role from this one on: from MARKED it is no good copy, from BLANK it is not readable as bad either. */
enum role drawn_role(struct test *test, enum role from);

/* Draws the page and the way of a cast's spoilt copies. */
void cast_draw_spoilt(struct test *test, struct cast *cast);

/* Makes a region of this cast, with tables, wanted bitmap and marks drawn. */
void scene_build(struct test *test, struct scene *scene, const struct cast *cast);

/* The same, with a wanted bitmap that changes an entry. */
void scene_build_changing(struct test *test, struct scene *scene, const struct cast *cast);

/* The region of this cast anew, from the tables as they are. No step has failed. The step is 1: of a plan with
 * steps, the first write. The page without a plan is the first of a primary of the cast's version. */
void scene_rebuild(struct test *test, struct scene *scene, const struct cast *cast);

/* Does an entry take a step's number, and give a page? */
bool gives_page(enum entry_index index);

/* Sets the scene's list of failed steps, or adds one to its end. */
void scene_fail(struct scene *scene, const uint8_t *failed, size_t len);
void scene_fail_too(struct scene *scene, uint8_t number);

/* Draws anew every byte of the region that must not count. */
void scene_stir(struct test *test, struct scene *scene);

/* Sets up a call of an entry, every length as named; `inputs` is a scene. */
void scene_set_up(struct test *test, enum entry_index index, const void *inputs);

/* Makes it. */
uint64_t scene_call(struct test *test, enum entry_index index, const struct scene *scene);

#endif
