/* Where primary and mirror differ though their versions are equal. */
#include "differ.h"

#include <stdio.h>
#include <string.h>

#include "reamsickle.h"
#include "table.h"

/* The bitmaps of both copies. */
struct both {
	uint8_t bitmap[KINDS][MOST_BITMAP];
};

/* A run of blocks of which the entries are the same in the primary, and in the mirror. */
struct run {
	uint64_t first, last;
	unsigned entry[KINDS];
};

/* Takes the bitmap of the only good copy of a kind, and its version. */
static bool take_copy(const struct region *region, enum kind kind, uint8_t *bitmap, uint8_t *version)
{
	unsigned copies = 0;

	for (unsigned block = 0; block < region->size; block++) {
		if (!region_good(region, block, kind))
			continue;
		copies++;
		*version = region_page(region, block, 0)[PAGE_DATA + VERSION];
		for (unsigned page = 0; page < region->pages; page++)
			memcpy(bitmap + (size_t)page * PAGE_DATA, region_page(region, block, page),
			       region_part_len(region, page));
	}
	return copies == 1;
}

static bool take_both(const struct region *region, struct both *both)
{
	uint8_t version[KINDS];

	return take_copy(region, PRIMARY, both->bitmap[PRIMARY], &version[PRIMARY]) &&
	       take_copy(region, MIRROR, both->bitmap[MIRROR], &version[MIRROR]) &&
	       version[PRIMARY] == version[MIRROR];
}

/* The run that starts at a block. */
static struct run run_from(const struct both *both, uint64_t n, uint64_t block)
{
	struct run run = { .first = block, .last = block };

	for (unsigned kind = 0; kind < KINDS; kind++)
		run.entry[kind] = ream_entry_get(both->bitmap[kind], block);
	while (run.last + 1 < n && ream_entry_get(both->bitmap[PRIMARY], run.last + 1) == run.entry[PRIMARY] &&
	       ream_entry_get(both->bitmap[MIRROR], run.last + 1) == run.entry[MIRROR])
		run.last++;
	return run;
}

/* Finds the next run, from a block on, in which they differ. */
static bool next_run(const struct both *both, uint64_t n, uint64_t block, struct run *run)
{
	for (; block < n; block = run->last + 1) {
		*run = run_from(both, n, block);
		if (run->entry[PRIMARY] != run->entry[MIRROR])
			return true;
	}
	return false;
}

void differ_print(const struct region *region)
{
	struct both both;
	struct run run;

	if (!take_both(region, &both))
		return;
	for (uint64_t block = 0; next_run(&both, region->n, block, &run); block = run.last + 1) {
		table_print_run(run.first, run.last);
		printf(": primary %s, mirror %s; merged %s\n", table_entry(run.entry[PRIMARY]),
		       table_entry(run.entry[MIRROR]), table_entry(run.entry[PRIMARY] & run.entry[MIRROR]));
	}
}

static void write_one(struct json *json, const struct run *run)
{
	json_object(json, NULL);
	table_write_run(json, run->first, run->last);
	json_text(json, "primary", table_entry(run->entry[PRIMARY]));
	json_text(json, "mirror", table_entry(run->entry[MIRROR]));
	json_text(json, "merged", table_entry(run->entry[PRIMARY] & run->entry[MIRROR]));
	json_end(json);
}

void differ_write(struct json *json, const struct region *region)
{
	struct both both;
	struct run run;

	json_list(json, "differing");
	if (take_both(region, &both))
		for (uint64_t block = 0; next_run(&both, region->n, block, &run); block = run.last + 1)
			write_one(json, &run);
	json_end(json);
}
