/*
 * The pages that a plan writes, as files in a folder: 2,112 bytes each, data and OOB, for nandwrite --oob. Their
 * names sort in the plan's order: step-01-block-1023-page-0.bin. A zero step has a file too, for nandwrite --onlyoob:
 * its OOB is 0, its data FF, which leaves that of the chip as it is; step-00-block-1022-zero.bin.
 */
#ifndef PAGES_H
#define PAGES_H

#include <stdbool.h>

#include "output.h"
#include "plan.h"

enum { MOST_PAGE_FILES = 1 + 2 * MOST_PAGES, PAGE_NAME_LEN = 48 };

/* One of these files. */
struct page_file {
	const struct plan *plan;
	unsigned step;
	char *path;
};

struct pages {
	const char *folder;	/* NULL where no files are wanted */
	bool made;		/* the folder is made here, and removed where it comes to nothing */
	struct page_file file[MOST_PAGE_FILES];
	unsigned count;
};

/* Has a step a file? An erase has none. */
bool pages_has(const struct plan *plan, unsigned step);

/* The name of a step's file. */
void pages_name(const struct plan *plan, unsigned step, char name[PAGE_NAME_LEN]);

/* Makes the folder, if it is not there, and adds its files to the outputs. A folder with the pages of another
 * plan is not taken. False, with a complaint, where that fails. */
bool pages_begin(struct pages *pages, const char *folder, const struct plan *plan, struct outputs *outputs);

/* The files are written, or are not. */
void pages_end(struct pages *pages, bool written);

#endif
