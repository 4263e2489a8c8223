/*
 * The factory's marks of a chip, OOB byte 0 of the first and of the second page of each block, and the first bitmap
 * that the library makes of them. 0 is a mark; any other byte is none.
 */
#ifndef FACTORY_H
#define FACTORY_H

#include <stdbool.h>
#include <stdint.h>

#include "dump.h"
#include "notes.h"

enum { MARKS_OF_BLOCK = 2, MOST_MARKS = MARKS_OF_BLOCK * MOST_BLOCKS };

struct factory {
	uint64_t n;			/* the chip's blocks, N */
	unsigned size;			/* blocks of the region */
	uint8_t marks[MOST_MARKS];	/* 2b and 2b + 1 are those of block b, of its first and of its second page */
};

/* The pages on which a block is marked. */
enum marked { NOT_MARKED, FIRST_PAGE, SECOND_PAGE, BOTH_PAGES };

/* Reads the marks of a dump. False, with a complaint, where that fails; where the dump does not show them all the
 * complaint starts with `expected`, what was expected of whom. */
bool factory_read(struct factory *factory, const struct dump *dump, const char *expected);

/* How many bytes the marks have. */
size_t factory_marks_len(const struct factory *factory);

enum marked factory_marked(const struct factory *factory, uint64_t block);

/* Notes the blocks of the region that are marked on their second page alone: they are not readable as bad. */
void factory_look_at_region(const struct factory *factory, struct notes *notes);

/* Leaves a block without a mark. */
void factory_clear(struct factory *factory, uint64_t block);

/* Asks the library for the first bitmap. */
void factory_bitmap(const struct factory *factory, uint8_t bitmap[MOST_BITMAP]);

#endif
