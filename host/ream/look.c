/* What a block of the region holds. */
#include "look.h"

#include <inttypes.h>
#include <stdio.h>

static bool is_blank(const struct region *region, unsigned block, unsigned page)
{
	const uint8_t *bytes = region_page(region, block, page);

	for (unsigned i = 0; i < PAGE_BYTES; i++)
		if (bytes[i] != 0xFF)
			return false;
	return true;
}

static enum page_look look_at_page(const struct region *region, unsigned block, unsigned page)
{
	if (page == 0 && region_zeroed(region, block))
		return PAGE_RETIRED;
	if (!region_reads_well(region, block, page))
		return PAGE_UNREADABLE;
	if (region_signed(region, block, page, PRIMARY))
		return PAGE_PRIMARY;
	if (region_signed(region, block, page, MIRROR))
		return PAGE_MIRROR;
	if (page == 0 && region_bad(region, block))
		return PAGE_BAD;
	return is_blank(region, block, page) ? PAGE_ERASED : PAGE_OTHER;
}

/* How many pages of a block look so? */
static unsigned number(const struct look *look, enum page_look page)
{
	unsigned number = 0;

	for (unsigned i = 0; i < look->pages; i++)
		number += look->page[i] == page;
	return number;
}

static enum block_look whole(const struct look *look, const struct region *region, unsigned block)
{
	if (region_good(region, block, PRIMARY))
		return BLOCK_PRIMARY;
	if (region_good(region, block, MIRROR))
		return BLOCK_MIRROR;
	if (region_zeroed(region, block))
		return BLOCK_RETIRED;
	if (region_bad(region, block))
		return BLOCK_BAD;
	if (number(look, PAGE_ERASED) == look->pages)
		return BLOCK_ERASED;
	if (number(look, PAGE_UNREADABLE) == look->pages)
		return BLOCK_UNREADABLE;
	return number(look, PAGE_OTHER) == 0 ? BLOCK_PARTLY : BLOCK_OTHER;
}

struct look look_at(const struct region *region, unsigned block)
{
	struct look look = { .pages = region->pages };

	for (unsigned page = 0; page < region->pages; page++) {
		look.page[page] = look_at_page(region, block, page);
		look.version[page] = region_page(region, block, page)[PAGE_DATA + VERSION];
	}
	look.block = whole(&look, region, block);
	return look;
}

char look_letter(enum page_look page)
{
	static const char letters[PAGE_LOOKS + 1] = "PM-xBR?";

	return letters[page];
}

/* A block in a word. */
static const char *block_word(enum block_look block)
{
	static const char *const words[] = {
		[BLOCK_PRIMARY] = "primary", [BLOCK_MIRROR] = "mirror", [BLOCK_ERASED] = "erased",
		[BLOCK_UNREADABLE] = "unreadable", [BLOCK_BAD] = "bad", [BLOCK_RETIRED] = "retired",
		[BLOCK_PARTLY] = "partly", [BLOCK_OTHER] = "other",
	};

	return words[block];
}

static bool is_copy(const struct look *look)
{
	return look->block == BLOCK_PRIMARY || look->block == BLOCK_MIRROR;
}

static void page_letters(const struct look *look, char letters[MOST_PAGES + 1])
{
	for (unsigned page = 0; page < look->pages; page++)
		letters[page] = look_letter(look->page[page]);
	letters[look->pages] = '\0';
}

/* A block in words, with letters before the version of a copy. */
static void put_words(const struct look *look, const char *version, char words[LOOK_LEN])
{
	const char *word = block_word(look->block);
	char letters[MOST_PAGES + 1];

	page_letters(look, letters);
	if (is_copy(look))
		snprintf(words, LOOK_LEN, "%s %s%u", word, version, look->version[0]);
	else if (look->block == BLOCK_PARTLY)
		snprintf(words, LOOK_LEN, "%s %s", word, letters);
	else
		snprintf(words, LOOK_LEN, "%s", word);
}

void look_words(const struct look *look, char words[LOOK_LEN])
{
	if (look->block == BLOCK_BAD)
		snprintf(words, LOOK_LEN, "bad (marked)");
	else if (look->block == BLOCK_RETIRED)
		snprintf(words, LOOK_LEN, "bad (retired)");
	else
		put_words(look, "v", words);
}

void look_brief(const struct look *look, char words[LOOK_LEN])
{
	put_words(look, "", words);
}

void look_letters(const struct look *look, char words[LOOK_LEN])
{
	if (is_copy(look))
		snprintf(words, LOOK_LEN, "%c%u", look_letter(look->page[0]), look->version[0]);
	else
		page_letters(look, words);
}

/* ---- the region */

void look_print_region(const struct region *region)
{
	for (unsigned block = 0; block < region->size; block++) {
		const struct look look = look_at(region, block);
		char words[LOOK_LEN];

		look_words(&look, words);
		printf("  block %" PRIu64 ": %s\n", region_first(region) + block, words);
	}
}

static void write_block(struct json *json, const struct region *region, unsigned block)
{
	const struct look look = look_at(region, block);
	char letters[MOST_PAGES + 1];

	page_letters(&look, letters);
	json_object(json, NULL);
	json_number(json, "block", region_first(region) + block);
	json_text(json, "holds", block_word(look.block));
	if (is_copy(&look))
		json_number(json, "version", look.version[0]);
	json_text(json, "pages", letters);
	json_end(json);
}

void look_write_region(struct json *json, const struct region *region)
{
	json_list(json, "region");
	for (unsigned block = 0; block < region->size; block++)
		write_block(json, region, block);
	json_end(json);
}
