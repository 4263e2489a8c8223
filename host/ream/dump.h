/*
 * Dumps of the large chip, as `nanddump --oob` writes them: pages with their OOB in turn, 2,112 bytes a page, of
 * the whole chip or of its region, the last 4 to 7 blocks. A dump's size tells which of the two it is, as a chip
 * has 8 blocks or more.
 *
 * A dump does not tell which pages could not be read. A status file does: one byte for each page that counts, the
 * first P pages of each block of the region, lowest block first; 00 is read well, 01 is unreadable. Pages can
 * be named instead, or besides. Without either every page counts as read well.
 */
#ifndef DUMP_H
#define DUMP_H

#include <stdbool.h>
#include <stdint.h>
#include <stdio.h>

#include "args.h"
#include "input.h"
#include "json.h"
#include "region.h"

enum {
	PAGES_PER_BLOCK = 64,		/* where they are not told */
	MOST_PAGES_PER_BLOCK = 1024,
	NOT_TOLD = 0,			/* no number that can be told */
};

/* The numbers of a chip. */
struct chip {
	uint64_t blocks;	/* N; where it is not told it follows from the size of a whole chip's dump */
	uint64_t region_blocks;	/* the last so many of them are the region */
	uint64_t pages_per_block;
};

/* What the options tell of a dump. */
struct shape {
	struct chip chip;
	const char *status;	/* the path of the status file, or NULL */
	struct texts unreadable;	/* lists of pages */
};

enum { MOST_READS = 3 };

struct dump {
	struct input input;
	bool blocks_told, region_told, pages_told, status_told;
	uint64_t pages_per_block;
	bool whole;		/* of the whole chip; otherwise of its region */
	struct region region;
	struct file_id read[MOST_READS];	/* the files that were read: the dump, its status file and a bitmap */
	unsigned reads;
};

/* The lines of a command's help on these options and on the dump. */
#define DUMP_HELP \
	"  --blocks N            the chip's blocks, a multiple of 4 from 8 to 32768; a\n" \
	"                        dump of the region alone needs it\n" \
	"  --region-blocks R     the chip's last blocks that are the region, which holds\n" \
	"                        the tables: 4 to 7, at most half of N; 4 if not told\n" \
	"  --pages-per-block K   pages of a block in the dump, 64 if not told\n" \
	"  --status FILE         how the pages that count were read, a byte for each:\n" \
	"                        00 well, 01 unreadable\n" \
	"  --unreadable B:P,..   pages that could not be read, chip block and page\n" \
	"  --json                answers in JSON\n" \
	"  DUMP                  pages of 2048 + 64 bytes in turn, of the whole chip or\n" \
	"                        of its region; - is the standard input\n"

/* Adds the options: --blocks, --region-blocks, --pages-per-block, --status and --unreadable. */
void dump_options(struct syntax *syntax, struct shape *shape);

/* The first three of these options alone, which tell a chip's numbers. */
void dump_chip_options(struct syntax *syntax, struct chip *chip);

/* Do a chip's numbers go together: is the region at most half of it, and has a block room for a copy of the
 * table? */
bool dump_fits(const struct chip *chip);

/* The first of these alone, which does not ask for the pages of a block. */
bool dump_region_fits(const struct chip *chip);

/* Reads what counts of a dump, and leaves it open; where that fails it is closed. */
bool dump_read(struct dump *dump, const char *path, const struct shape *shape);

void dump_close(struct dump *dump);

/* Where a page of a block of the region starts in the dump. */
uint64_t dump_offset(const struct dump *dump, unsigned block, unsigned page);

/* Tells the region of a chip, and the numbers of blocks of both; those that are not told are assumed. */
void dump_print_region(const struct chip *chip, bool region_told);
void dump_write_blocks(struct json *json, const struct chip *chip, bool blocks_told, bool region_told);

/* Tells the chip and the dump, and what of it is assumed. */
void dump_print(const struct dump *dump);
void dump_write(struct json *json, const struct dump *dump);

/* Writes a region as a dump of it alone; pages behind the first P are blank. For struct output: from a struct
 * dump, of which pages_per_block and region count. */
bool dump_fill(FILE *stream, const void *dump);

#endif
