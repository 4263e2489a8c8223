/*
 * Dumps of the small chip, as `nanddump --oob` writes them: pages with their spare in turn, 528 bytes a page, of the
 * whole chip or of its first blocks. Of each block the spares of its first and last page count. A file may hold these
 * alone, 32 bytes a block.
 */
#ifndef SMALL_H
#define SMALL_H

#include <stdbool.h>
#include <stdint.h>

#include "args.h"
#include "input.h"
#include "json.h"
#include "reamsickle.h"

/* What the options tell of a dump. */
struct small_shape {
	uint64_t pages_per_block;
	bool spares;		/* it holds the spares alone */
};

struct small {
	struct input input;
	bool pages_told, spares_alone;
	uint64_t pages_per_block;	/* where it has pages */
	unsigned blocks;
	uint8_t spares[REAM_SMALL_BLOCKS_MAX * REAM_BOOT_SPARES_SIZE];
};

/* The lines of a command's help on these options and on the dump. */
#define SMALL_HELP \
	"  --pages-per-block K   pages of a block in the dump, 32 if not told\n" \
	"  --spares              DUMP holds spares alone, 32 bytes a block: the spare of\n" \
	"                        its first page, then that of its last\n" \
	"  --json                answers in JSON\n" \
	"  DUMP                  pages of 512 + 16 bytes in turn, of the whole chip or of\n" \
	"                        its first blocks, at most 1024; - is the standard input\n"

/* Adds the options: --pages-per-block and --spares. */
void small_options(struct syntax *syntax, struct small_shape *shape);

/* Reads the spares that count, and leaves the dump open; where that fails it is closed. */
bool small_read(struct small *small, const char *path, const struct small_shape *shape);

void small_close(struct small *small);

/* The same dump with another usual number of pages a block, 32 or 16. False where its size is right for none, or it
 * has no pages. */
bool small_otherwise(const struct small *small, struct small *other);

/* Where a block starts on the chip, counted in bytes of data. */
uint64_t small_address(const struct small *small, unsigned block);

/* Tells the dump, and what of it is assumed. */
void small_print(const struct small *small);
void small_write(struct json *json, const struct small *small);

#endif
