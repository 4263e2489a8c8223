/* Dumps of the small chip. */
#include "small.h"

#include <inttypes.h>
#include <stdio.h>

#include "dump.h"
#include "tool.h"

enum {
	USUAL_PAGES = 32,	/* of a block, where they are not told */
	OTHER_PAGES = 16,	/* the other usual number */
	SPARE = REAM_SMALL_SPARE_SIZE,
	SMALL_PAGE = REAM_SMALL_DATA_SIZE + SPARE,
	WORDS_LEN = 64,
};

void small_options(struct syntax *syntax, struct small_shape *shape)
{
	shape->pages_per_block = NOT_TOLD;
	shape->spares = false;
	args_add(syntax, (struct argument){ .name = "pages-per-block", .number = &shape->pages_per_block,
					    .least = 1, .most = MOST_PAGES_PER_BLOCK });
	args_add(syntax, (struct argument){ .name = "spares", .flag = &shape->spares });
}

/* ---- its size */

static uint64_t block_size(const struct small *small)
{
	return small->spares_alone ? REAM_BOOT_SPARES_SIZE : small->pages_per_block * SMALL_PAGE;
}

/* Is its size one of whole blocks, and not of too many? */
static bool has_whole_blocks(const struct small *small)
{
	const uint64_t size = small->input.size;

	return size != 0 && size % block_size(small) == 0 && size / block_size(small) <= REAM_SMALL_BLOCKS_MAX;
}

/* The same dump with another usual number of pages a block, with which its size is right. Its spares are not read. */
static bool fits_otherwise(const struct small *small, struct small *other)
{
	static const uint64_t usual[] = { USUAL_PAGES, OTHER_PAGES };

	other->input = small->input;
	other->pages_told = true;
	other->spares_alone = false;
	for (unsigned i = 0; i < sizeof(usual) / sizeof(usual[0]); i++) {
		other->pages_per_block = usual[i];
		if (usual[i] != small->pages_per_block && has_whole_blocks(other))
			return true;
	}
	return false;
}

/* Says with which option the size would be right. */
static void hint_at_size(const struct small *small, char hint[WORDS_LEN])
{
	struct small other;

	hint[0] = '\0';
	if (small->spares_alone)
		return;
	if (fits_otherwise(small, &other)) {
		snprintf(hint, WORDS_LEN, "; --pages-per-block %" PRIu64 " would fit", other.pages_per_block);
		return;
	}
	other.spares_alone = true;
	if (has_whole_blocks(&other))
		snprintf(hint, WORDS_LEN, "; --spares would fit");
}

/* What a block has in the dump. */
static void block_words(const struct small *small, char words[WORDS_LEN])
{
	const uint64_t pages = small->pages_per_block;

	if (small->spares_alone)
		snprintf(words, WORDS_LEN, "2 spares of %d", SPARE);
	else
		snprintf(words, WORDS_LEN, "%" PRIu64 " page%s of %d", pages, plural(pages), SMALL_PAGE);
}

static void complain_of_size(const struct small *small)
{
	const uint64_t size = small->input.size, each = block_size(small), blocks = size / each;
	const char *name = small->input.id.name;
	char hint[WORDS_LEN], words[WORDS_LEN];

	hint_at_size(small, hint);
	block_words(small, words);
	if (size == 0)
		complain("%s: is empty; expected blocks of %" PRIu64 " bytes, %s", name, each, words);
	else if (size % each != 0)
		complain("%s: ends at offset %" PRIu64 ", inside block %" PRIu64
			 "; expected whole blocks of %" PRIu64 " bytes, %s%s (" REFUSED_LENGTH ")",
			 name, size, blocks, each, words, hint);
	else
		complain("%s: has %" PRIu64 " bytes, %" PRIu64 " blocks of %s; expected at most %d blocks%s ("
			 REFUSED_RANGE ")",
			 name, size, blocks, words, REAM_SMALL_BLOCKS_MAX, hint);
}

/* ---- its spares */

/* Reads the spare of a block's first or last page. */
static bool read_spare(const struct small *small, unsigned block, bool last, uint8_t *spare)
{
	const uint64_t page = block * small->pages_per_block + (last ? small->pages_per_block - 1 : 0);

	return input_read(&small->input, page * SMALL_PAGE + REAM_SMALL_DATA_SIZE, spare, SPARE);
}

/* Reads what counts of a dump of the right size. */
static bool read_spares(struct small *small)
{
	small->blocks = (unsigned)(small->input.size / block_size(small));
	if (small->spares_alone)
		return input_read(&small->input, 0, small->spares, (size_t)small->input.size);
	for (unsigned block = 0; block < small->blocks; block++) {
		uint8_t *spares = small->spares + (size_t)block * REAM_BOOT_SPARES_SIZE;

		if (!read_spare(small, block, false, spares) || !read_spare(small, block, true, spares + SPARE))
			return false;
	}
	return true;
}

/* Takes what is told, and assumes what is not. */
static bool take_told(struct small *small, const struct small_shape *shape)
{
	small->spares_alone = shape->spares;
	small->pages_told = shape->pages_per_block != NOT_TOLD;
	small->pages_per_block = small->pages_told ? shape->pages_per_block : USUAL_PAGES;
	if (small->spares_alone && small->pages_told)
		complain("--pages-per-block %" PRIu64 ": expected it without --spares, as spares alone have no pages",
			 small->pages_per_block);
	return !small->spares_alone || !small->pages_told;
}

bool small_read(struct small *small, const char *path, const struct small_shape *shape)
{
	if (!take_told(small, shape) || !input_open(&small->input, path))
		return false;
	if (!has_whole_blocks(small))
		complain_of_size(small);
	else if (read_spares(small))
		return true;
	small_close(small);
	return false;
}

void small_close(struct small *small)
{
	input_close(&small->input);
}

bool small_otherwise(const struct small *small, struct small *other)
{
	return !small->spares_alone && fits_otherwise(small, other) && read_spares(other);
}

uint64_t small_address(const struct small *small, unsigned block)
{
	return block * small->pages_per_block * REAM_SMALL_DATA_SIZE;
}

/* ---- telling */

void small_print(const struct small *small)
{
	printf("dump: %u block%s (by its size), ", small->blocks, plural(small->blocks));
	if (small->spares_alone)
		printf("of each the spares of its first and last page\n");
	else
		printf("%" PRIu64 " page%s a block (%s)\n", small->pages_per_block, plural(small->pages_per_block),
		       small->pages_told ? "told" : "assumed");
}

void small_write(struct json *json, const struct small *small)
{
	json_object(json, "dump");
	json_text(json, "name", small->input.id.name);
	json_number(json, "size", small->input.size);
	json_number(json, "blocks", small->blocks);
	json_truth(json, "spares_alone", small->spares_alone);
	if (!small->spares_alone) {
		json_number(json, "pages_per_block", small->pages_per_block);
		json_truth(json, "pages_per_block_told", small->pages_told);
	}
	json_end(json);
}
