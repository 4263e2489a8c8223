/* The table of a region, read by the library, and told in words. */
#ifndef TABLE_H
#define TABLE_H

#include <stdint.h>

#include "json.h"
#include "region.h"

/* A settled pair's table. */
struct settled {
	unsigned version;
	unsigned primary, mirror;	/* chip blocks */
	uint8_t bitmap[MOST_BITMAP];
};

/* Reads it. Gives the refusal, or REAM_OK. */
unsigned table_read(const struct region *region, struct settled *table);

/* An entry in a word. */
const char *table_entry(unsigned entry);

/* Tells version and chip blocks. */
void table_print_pair(const struct settled *table);
void table_write_pair(struct json *json, const struct settled *table);

/* Tells how many entries there are of each kind, and the blocks that are not good: a line, or a value, for each
 * run of equal entries. */
void table_print_entries(const struct settled *table, uint64_t n);
void table_write_entries(struct json *json, const struct settled *table, uint64_t n);

/* Tells a run of blocks: "  block 7", "  blocks 9-11". */
void table_print_run(uint64_t first, uint64_t last);
void table_write_run(struct json *json, uint64_t first, uint64_t last);

#endif
