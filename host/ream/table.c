/* The table of a region. */
#include "table.h"

#include <inttypes.h>
#include <stdio.h>

#include "reamsickle.h"

unsigned table_read(const struct region *region, struct settled *table)
{
	const uint64_t answer = ream_table_read(region->n, region->size, region->image, region_image_len(region),
						region->status, region_status_len(region), table->bitmap,
						ream_bitmap_size(region->n));

	table->version = ream_version(answer);
	table->primary = ream_primary_block(answer);
	table->mirror = ream_mirror_block(answer);
	return ream_refusal(answer);
}

const char *table_entry(unsigned entry)
{
	static const char *const words[] = {
		[REAM_ENTRY_FACTORY] = "factory", [REAM_ENTRY_LATE] = "late", [REAM_ENTRY_RESERVED] = "reserved",
		[REAM_ENTRY_GOOD] = "good",
	};

	return words[entry];
}

void table_print_run(uint64_t first, uint64_t last)
{
	if (first == last)
		printf("  block %" PRIu64, first);
	else
		printf("  blocks %" PRIu64 "-%" PRIu64, first, last);
}

void table_write_run(struct json *json, uint64_t first, uint64_t last)
{
	json_number(json, "first", first);
	json_number(json, "last", last);
}

/* ---- the pair */

void table_print_pair(const struct settled *table)
{
	printf("pair: settled, version %u, primary in block %u, mirror in block %u\n", table->version,
	       table->primary, table->mirror);
}

void table_write_pair(struct json *json, const struct settled *table)
{
	json_number(json, "version", table->version);
	json_number(json, "primary", table->primary);
	json_number(json, "mirror", table->mirror);
}

/* ---- entries */

static void count(const struct settled *table, uint64_t n, uint64_t number[4])
{
	for (unsigned entry = 0; entry < 4; entry++)
		number[entry] = 0;
	for (uint64_t block = 0; block < n; block++)
		number[ream_entry_get(table->bitmap, block)]++;
}

/* The last block of the run of equal entries that starts at a block. */
static uint64_t run_end(const uint8_t *bitmap, uint64_t n, uint64_t block)
{
	const unsigned entry = ream_entry_get(bitmap, block);

	while (block + 1 < n && ream_entry_get(bitmap, block + 1) == entry)
		block++;
	return block;
}

void table_print_entries(const struct settled *table, uint64_t n)
{
	uint64_t number[4], end;

	count(table, n, number);
	printf("entries: %" PRIu64 " good, %" PRIu64 " reserved, %" PRIu64 " late, %" PRIu64 " factory\n",
	       number[REAM_ENTRY_GOOD], number[REAM_ENTRY_RESERVED], number[REAM_ENTRY_LATE],
	       number[REAM_ENTRY_FACTORY]);
	for (uint64_t block = 0; block < n; block = end + 1) {
		const unsigned entry = ream_entry_get(table->bitmap, block);

		end = run_end(table->bitmap, n, block);
		if (entry == REAM_ENTRY_GOOD)
			continue;
		table_print_run(block, end);
		printf(": %s\n", table_entry(entry));
	}
}

void table_write_entries(struct json *json, const struct settled *table, uint64_t n)
{
	uint64_t number[4], end;

	count(table, n, number);
	json_object(json, "entries");
	for (unsigned entry = 0; entry < 4; entry++)
		json_number(json, table_entry(entry), number[entry]);
	json_end(json);
	json_list(json, "not_good");
	for (uint64_t block = 0; block < n; block = end + 1) {
		const unsigned entry = ream_entry_get(table->bitmap, block);

		end = run_end(table->bitmap, n, block);
		if (entry == REAM_ENTRY_GOOD)
			continue;
		json_object(json, NULL);
		table_write_run(json, block, end);
		json_text(json, "entry", table_entry(entry));
		json_end(json);
	}
	json_end(json);
}
