/* Dumps of the large chip. */
#include "dump.h"

#include <inttypes.h>
#include <string.h>

#include "reamsickle.h"
#include "status.h"
#include "tool.h"

/* ---- options */

void dump_chip_options(struct syntax *syntax, struct chip *chip)
{
	args_add(syntax, (struct argument){ .name = "blocks", .number = &chip->blocks, .least = REAM_BLOCKS_MIN,
					    .most = REAM_BLOCKS_MAX, .multiple = 4, .refusal = REFUSED_RANGE });
	args_add(syntax, (struct argument){ .name = "region-blocks", .number = &chip->region_blocks,
					    .least = REAM_REGION_BLOCKS_MIN, .most = REAM_REGION_BLOCKS_MAX,
					    .refusal = REFUSED_RANGE });
	args_add(syntax, (struct argument){ .name = "pages-per-block", .number = &chip->pages_per_block,
					    .least = 1, .most = MOST_PAGES_PER_BLOCK });
}

void dump_options(struct syntax *syntax, struct shape *shape)
{
	memset(shape, 0, sizeof(*shape));
	dump_chip_options(syntax, &shape->chip);
	args_add(syntax, (struct argument){ .name = "status", .text = &shape->status });
	args_add(syntax, (struct argument){ .name = "unreadable", .texts = &shape->unreadable });
}

bool dump_region_fits(const struct chip *chip)
{
	const bool fits = ream_region_fits(chip->blocks, chip->region_blocks);

	if (!fits)
		complain("--region-blocks %" PRIu64 ": expected at most %u, half of the chip's %" PRIu64
			 " blocks (" REFUSED_RANGE ")",
			 chip->region_blocks, region_largest(chip->blocks), chip->blocks);
	return fits;
}

bool dump_fits(const struct chip *chip)
{
	const unsigned pages = ream_table_pages(chip->blocks);

	if (!dump_region_fits(chip))
		return false;
	if (chip->pages_per_block < pages)
		complain("--pages-per-block %" PRIu64 ": expected at least %u, the pages of a table of %" PRIu64
			 " blocks",
			 chip->pages_per_block, pages, chip->blocks);
	return chip->pages_per_block >= pages;
}

/* ---- its size */

enum { HINT_LEN = 80 };

static uint64_t block_size(const struct chip *chip)
{
	return chip->pages_per_block * PAGE_BYTES;
}

/* Says of which region so many blocks would be a dump, if it is not the chip's. */
static void hint_at_region(const struct chip *chip, uint64_t blocks, char hint[HINT_LEN])
{
	hint[0] = '\0';
	if (blocks != chip->region_blocks && blocks >= FEWEST_REGION_BLOCKS && blocks <= MOST_REGION_BLOCKS)
		snprintf(hint, HINT_LEN, "; --region-blocks %" PRIu64 " and --blocks N would fit", blocks);
}

/* Finds N from the size of a dump of the whole chip. */
static bool find_blocks(const struct dump *dump, struct chip *chip)
{
	const uint64_t size = dump->input.size, pages = chip->pages_per_block, blocks = size / block_size(chip);
	char hint[HINT_LEN];

	if (size % block_size(chip) != 0) {
		complain("%s: ends at offset %" PRIu64 ", inside block %" PRIu64
			 "; expected whole blocks of %" PRIu64 " bytes, %" PRIu64
			 " page%s of %d (" REFUSED_LENGTH ")",
			 dump->input.id.name, size, blocks, block_size(chip), pages, plural(pages), PAGE_BYTES);
		return false;
	}
	chip->blocks = blocks;
	if (ream_table_pages(blocks) != 0)
		return true;
	hint_at_region(chip, blocks, hint);
	complain("%s: has %" PRIu64 " block%s of %" PRIu64
		 " page%s; expected a whole chip, a multiple of 4 blocks "
		 "from %d to %d, or the last %s blocks and --blocks N%s (" REFUSED_RANGE ")",
		 dump->input.id.name, blocks, plural(blocks), pages, plural(pages), REAM_BLOCKS_MIN,
		 REAM_BLOCKS_MAX, size_word(chip->region_blocks), hint);
	return false;
}

/* The pages of a block with which the size is that of the whole chip or of its region; 0 where there are none. */
static uint64_t fitting_pages(uint64_t size, const struct chip *chip)
{
	if (size == 0 || size % PAGE_BYTES != 0)
		return 0;
	size /= PAGE_BYTES;
	if (size % chip->blocks == 0 && size / chip->blocks <= MOST_PAGES_PER_BLOCK)
		return size / chip->blocks;
	if (size % chip->region_blocks == 0 && size / chip->region_blocks <= MOST_PAGES_PER_BLOCK)
		return size / chip->region_blocks;
	return 0;
}

/* Says with which number the size would be right. */
static void hint_at_size(const struct chip *chip, uint64_t size, char hint[HINT_LEN])
{
	const uint64_t blocks = size / block_size(chip), fitting = fitting_pages(size, chip);

	hint[0] = '\0';
	if (size % block_size(chip) == 0 && ream_region_fits(chip->blocks, blocks))
		snprintf(hint, HINT_LEN, "; it has %" PRIu64 " blocks, --region-blocks %" PRIu64 " would fit",
			 blocks, blocks);
	else if (fitting >= ream_table_pages(chip->blocks))
		snprintf(hint, HINT_LEN, "; --pages-per-block %" PRIu64 " would fit", fitting);
}

static void complain_of_size(const struct dump *dump, const struct chip *chip)
{
	const uint64_t n = chip->blocks, pages = chip->pages_per_block;
	char hint[HINT_LEN];

	hint_at_size(chip, dump->input.size, hint);
	complain("%s: ends at offset %" PRIu64 "; expected %" PRIu64 " bytes, all %" PRIu64 " blocks of %" PRIu64
		 " page%s, or %" PRIu64 " bytes, the last %s%s (" REFUSED_LENGTH ")",
		 dump->input.id.name, dump->input.size, n * block_size(chip), n, pages, plural(pages),
		 chip->region_blocks * block_size(chip), size_word(chip->region_blocks), hint);
}

/* Takes the numbers that are told, and assumes those that are not, but for N. */
static void take_told(struct dump *dump, const struct shape *shape, struct chip *chip)
{
	*chip = shape->chip;
	dump->blocks_told = chip->blocks != NOT_TOLD;
	dump->region_told = chip->region_blocks != NOT_TOLD;
	dump->pages_told = chip->pages_per_block != NOT_TOLD;
	if (!dump->region_told)
		chip->region_blocks = FEWEST_REGION_BLOCKS;
	if (!dump->pages_told)
		chip->pages_per_block = PAGES_PER_BLOCK;
	dump->pages_per_block = chip->pages_per_block;
}

/* Finds the chip's numbers, and whether the dump has the whole chip. */
static bool measure(struct dump *dump, const struct shape *shape, struct chip *chip)
{
	take_told(dump, shape, chip);
	if (!dump->blocks_told && !find_blocks(dump, chip))
		return false;
	if (!dump_fits(chip))
		return false;
	dump->whole = dump->input.size == chip->blocks * block_size(chip);
	if (dump->whole || dump->input.size == chip->region_blocks * block_size(chip))
		return true;
	complain_of_size(dump, chip);
	return false;
}

/* ---- its pages */

static bool read_pages(struct dump *dump)
{
	for (unsigned block = 0; block < dump->region.size; block++)
		for (unsigned page = 0; page < dump->region.pages; page++)
			if (!input_read(&dump->input, dump_offset(dump, block, page),
					region_data(&dump->region, block, page), PAGE_BYTES))
				return false;
	return true;
}

/* ---- the whole */

/* Reads what counts of a dump that is open. */
static bool read_open(struct dump *dump, const struct shape *shape)
{
	struct chip chip;

	if (!measure(dump, shape, &chip))
		return false;
	region_begin(&dump->region, chip.blocks, (unsigned)chip.region_blocks);
	return read_pages(dump) &&
	       (!shape->status || status_read(&dump->region, shape->status, &dump->read[dump->reads++])) &&
	       status_take_unreadable(&dump->region, &shape->unreadable);
}

bool dump_read(struct dump *dump, const char *path, const struct shape *shape)
{
	if (shape->status && strcmp(path, "-") == 0 && strcmp(shape->status, "-") == 0) {
		complain("-: is named for two files to read, the dump and its status file");
		return false;
	}
	if (!input_open(&dump->input, path))
		return false;
	dump->read[0] = dump->input.id;
	dump->reads = 1;
	dump->status_told = shape->status || shape->unreadable.count > 0;
	if (read_open(dump, shape))
		return true;
	dump_close(dump);
	return false;
}

void dump_close(struct dump *dump)
{
	input_close(&dump->input);
}

uint64_t dump_offset(const struct dump *dump, unsigned block, unsigned page)
{
	const uint64_t first = dump->whole ? region_first(&dump->region) : 0;

	return ((first + block) * dump->pages_per_block + page) * PAGE_BYTES;
}

/* ---- telling */

/* Where N comes from. A region alone does not show it. */
static const char *blocks_from(const struct dump *dump)
{
	if (!dump->blocks_told)
		return "by the dump's size";
	return dump->whole ? "told" : "told, unchecked";
}

/* Where another number comes from. */
static const char *number_from(bool told)
{
	return told ? "told" : "assumed";
}

/* What the dump has. */
static void print_what(const struct dump *dump)
{
	const struct region *region = &dump->region;

	if (dump->whole)
		printf("dump: the whole chip");
	else
		printf("dump: the last %s blocks", size_word(region->size));
	printf("; a copy of the table fills %u page%s\n", region->pages, plural(region->pages));
}

/* The numbers that a dump is read with. */
static struct chip chip_of(const struct dump *dump)
{
	return (struct chip){ dump->region.n, dump->region.size, dump->pages_per_block };
}

void dump_print_region(const struct chip *chip, bool region_told)
{
	printf("region: the last %s blocks, %" PRIu64 "-%" PRIu64 " (%s)\n", size_word(chip->region_blocks),
	       chip->blocks - chip->region_blocks, chip->blocks - 1, number_from(region_told));
}

void dump_print(const struct dump *dump)
{
	const struct region *region = &dump->region;
	const struct chip chip = chip_of(dump);
	const unsigned counting = (unsigned)region_status_len(region);

	printf("chip: %" PRIu64 " blocks (%s), %" PRIu64 " page%s a block (%s)\n", region->n,
	       blocks_from(dump), dump->pages_per_block, plural(dump->pages_per_block),
	       number_from(dump->pages_told));
	print_what(dump);
	dump_print_region(&chip, dump->region_told);
	if (dump->status_told)
		printf("pages: of the %u that count %u unreadable (told)\n", counting, status_count(region));
	else
		printf("pages: all %u that count read well (assumed)\n", counting);
}

void dump_write_blocks(struct json *json, const struct chip *chip, bool blocks_told, bool region_told)
{
	json_number(json, "blocks", chip->blocks);
	json_truth(json, "blocks_told", blocks_told);
	json_number(json, "region_blocks", chip->region_blocks);
	json_truth(json, "region_blocks_told", region_told);
}

void dump_write(struct json *json, const struct dump *dump)
{
	const struct chip chip = chip_of(dump);

	json_object(json, "chip");
	dump_write_blocks(json, &chip, dump->blocks_told, dump->region_told);
	json_number(json, "pages_per_block", dump->pages_per_block);
	json_truth(json, "pages_per_block_told", dump->pages_told);
	json_number(json, "table_pages", dump->region.pages);
	json_end(json);
	json_object(json, "dump");
	json_text(json, "name", dump->input.id.name);
	json_number(json, "size", dump->input.size);
	json_truth(json, "whole_chip", dump->whole);
	json_truth(json, "status_told", dump->status_told);
	status_write(json, &dump->region);
	json_end(json);
}

/* ---- writing */

bool dump_fill(FILE *stream, const void *from)
{
	const struct dump *dump = from;
	const struct region *region = &dump->region;
	uint8_t blank[PAGE_BYTES];

	memset(blank, 0xFF, sizeof(blank));
	for (unsigned block = 0; block < region->size; block++)
		for (unsigned page = 0; page < dump->pages_per_block; page++)
			fwrite(page < region->pages ? region_page(region, block, page) : blank, 1, PAGE_BYTES,
			       stream);
	return true;
}
