/* The map of the boot blocks. */
#include "bootmap.h"

#include <stdio.h>
#include <string.h>

#include "table.h"

/* ---- the map */

/* Does a block count? Lent alone, one that counts is mapped, or refused as boot number 0 is missing. */
static bool counts(const uint8_t *spares)
{
	uint8_t mapped[REAM_BOOT_BLOCK_SIZE], erased[REAM_BOOT_BLOCK_SIZE];
	const uint64_t answer = ream_boot_map(1, spares, REAM_BOOT_SPARES_SIZE, mapped, sizeof(mapped), erased,
					      sizeof(erased));

	return ream_refusal(answer) != REAM_OK || ream_mapped_count(answer) != 0;
}

void bootmap_make(struct bootmap *map, const struct small *small)
{
	const size_t list_len = (size_t)small->blocks * REAM_BOOT_BLOCK_SIZE;

	map->answer = ream_boot_map(small->blocks, small->spares, (size_t)small->blocks * REAM_BOOT_SPARES_SIZE,
				    map->mapped, list_len, map->erased, list_len);
	map->blocks = small->blocks;
	for (unsigned i = 0; i < map->blocks; i++) {
		const uint8_t *spares = small->spares + (size_t)i * REAM_BOOT_SPARES_SIZE;

		map->block[i].counts = counts(spares);
		map->block[i].first = spare_read(spares);
		map->block[i].last = spare_read(spares + REAM_SMALL_SPARE_SIZE);
	}
}

uint32_t bootmap_number(const struct boot_block *block)
{
	return ream_boot_number(block->first.fields.path);
}

unsigned bootmap_generation(const struct boot_block *block)
{
	return ream_boot_generation(block->first.fields.path);
}

/* ---- what is passed over */

/* What a page shows; whether a word was repaired makes no difference for one that is not ours. */
static enum spare_kind shown(const struct spare *spare)
{
	return spare->kind == SPARE_NOT_OURS_REPAIRED ? SPARE_NOT_OURS : spare->kind;
}

/* What a block is passed over for: that either page is marked bad, else what both show. SPARE_KINDS where they show
 * something else each, or are boot pages, which have other boot numbers or generations then. */
static enum spare_kind kind_of(const struct boot_block *block)
{
	const enum spare_kind first = shown(&block->first), last = shown(&block->last);

	if (first == SPARE_FACTORY || first == SPARE_LATE)
		return first;
	if (last == SPARE_FACTORY || last == SPARE_LATE)
		return last;
	return first == last && first != SPARE_BOOT ? first : SPARE_KINDS;
}

static const char *kind_word(enum spare_kind kind)
{
	return kind == SPARE_KINDS ? "first and last page differ" : spare_word(kind);
}

/* How many blocks count; and how many of each kind are passed over. */
static unsigned tally(const struct bootmap *map, unsigned passed[SPARE_KINDS + 1])
{
	unsigned counting = 0;

	memset(passed, 0, (SPARE_KINDS + 1) * sizeof(passed[0]));
	for (unsigned i = 0; i < map->blocks; i++) {
		if (map->block[i].counts)
			counting++;
		else
			passed[kind_of(&map->block[i])]++;
	}
	return counting;
}

void bootmap_print_passed(const struct bootmap *map)
{
	unsigned passed[SPARE_KINDS + 1];
	const unsigned counting = tally(map, passed);

	printf("blocks: %u boot, %u passed over\n", counting, map->blocks - counting);
	for (unsigned kind = 0; kind <= SPARE_KINDS; kind++)
		if (passed[kind] != 0)
			printf("  %4u %s\n", passed[kind], kind_word(kind));
}

void bootmap_write_passed(struct json *json, const struct bootmap *map)
{
	unsigned passed[SPARE_KINDS + 1];

	tally(map, passed);
	json_list(json, "passed_over");
	for (unsigned kind = 0; kind <= SPARE_KINDS; kind++) {
		if (passed[kind] == 0)
			continue;
		json_object(json, NULL);
		json_text(json, "why", kind_word(kind));
		json_number(json, "blocks", passed[kind]);
		json_end(json);
	}
	json_end(json);
}

/* ---- what the blocks hold */

/* The words of a block's pages. */
struct words {
	char first[SPARE_LEN], last[SPARE_LEN];
};

static struct words words_of(const struct boot_block *block)
{
	struct words words;

	spare_words(&block->first, words.first);
	spare_words(&block->last, words.last);
	return words;
}

static bool hold_the_same(const struct boot_block *one, const struct boot_block *other)
{
	const struct words a = words_of(one), b = words_of(other);

	return one->counts == other->counts && strcmp(a.first, b.first) == 0 && strcmp(a.last, b.last) == 0;
}

/* The last block of the run of blocks that hold the same, from a block on. */
static unsigned run_end(const struct bootmap *map, unsigned block)
{
	while (block + 1 < map->blocks && hold_the_same(&map->block[block], &map->block[block + 1]))
		block++;
	return block;
}

void bootmap_print_block(const struct boot_block *block)
{
	const struct words words = words_of(block);

	if (strcmp(words.first, words.last) == 0)
		printf("%s\n", words.first);
	else
		printf("first page %s,\n    last page %s\n", words.first, words.last);
}

void bootmap_print_blocks(const struct bootmap *map)
{
	unsigned end;

	for (unsigned block = 0; block < map->blocks; block = end + 1) {
		end = run_end(map, block);
		table_print_run(block, end);
		printf(": ");
		bootmap_print_block(&map->block[block]);
	}
}

void bootmap_write_blocks(struct json *json, const struct bootmap *map)
{
	unsigned end;

	json_list(json, "blocks");
	for (unsigned block = 0; block < map->blocks; block = end + 1) {
		const struct words words = words_of(&map->block[block]);

		end = run_end(map, block);
		json_object(json, NULL);
		table_write_run(json, block, end);
		json_truth(json, "counts", map->block[block].counts);
		json_text(json, "first_page", words.first);
		json_text(json, "last_page", words.last);
		json_end(json);
	}
	json_end(json);
}
