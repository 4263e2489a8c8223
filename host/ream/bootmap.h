/*
 * The map of the boot blocks in a dump of the small chip. Which blocks count as boot blocks, are mapped or are to be
 * erased is the library's answer; what the other blocks hold is told by their spares.
 */
#ifndef BOOTMAP_H
#define BOOTMAP_H

#include <stdbool.h>
#include <stdint.h>

#include "json.h"
#include "small.h"
#include "spare.h"

/* A block, by the spares of its first and last page. */
struct boot_block {
	bool counts;
	struct spare first, last;
};

struct bootmap {
	uint64_t answer;
	uint8_t mapped[REAM_SMALL_BLOCKS_MAX * REAM_BOOT_BLOCK_SIZE];
	uint8_t erased[REAM_SMALL_BLOCKS_MAX * REAM_BOOT_BLOCK_SIZE];
	unsigned blocks;
	struct boot_block block[REAM_SMALL_BLOCKS_MAX];
};

void bootmap_make(struct bootmap *map, const struct small *small);

/* Boot number and generation of a block that counts. */
uint32_t bootmap_number(const struct boot_block *block);
unsigned bootmap_generation(const struct boot_block *block);

/* Tells how many blocks are passed over, of each kind; as text also how many count. */
void bootmap_print_passed(const struct bootmap *map);
void bootmap_write_passed(struct json *json, const struct bootmap *map);

/* Tells what a block holds. */
void bootmap_print_block(const struct boot_block *block);

/* Tells what the blocks hold: a line, or a value, for each run of blocks that hold the same. */
void bootmap_print_blocks(const struct bootmap *map);
void bootmap_write_blocks(struct json *json, const struct bootmap *map);

#endif
