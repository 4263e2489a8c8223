/* A file of the factory's marks alone. */
#include "markfile.h"

#include <inttypes.h>
#include <stdio.h>

#include "reamsickle.h"
#include "tool.h"

/* Takes the numbers that are told, and assumes those that are not, but for N. */
static bool take_told(struct markfile *file, const struct chip *told)
{
	file->chip = *told;
	file->blocks_told = told->blocks != NOT_TOLD;
	file->region_told = told->region_blocks != NOT_TOLD;
	if (!file->region_told)
		file->chip.region_blocks = FEWEST_REGION_BLOCKS;
	if (told->pages_per_block != NOT_TOLD)
		complain("--pages-per-block %" PRIu64 ": expected it without --marks, as marks alone have no pages",
			 told->pages_per_block);
	return told->pages_per_block == NOT_TOLD;
}

/* ---- its size */

/* Are there as many marks as the chip that is told has? */
static bool has_told(const struct markfile *file)
{
	const uint64_t expected = MARKS_OF_BLOCK * file->chip.blocks;

	if (file->size != expected)
		complain("%s: ends at offset %" PRIu64 ", expected %" PRIu64
			 " bytes, %d marks for each of the chip's %" PRIu64 " blocks (" REFUSED_LENGTH ")",
			 file->id.name, file->size, expected, MARKS_OF_BLOCK, file->chip.blocks);
	return file->size == expected;
}

/* Finds N from the size. */
static bool find_blocks(struct markfile *file)
{
	const uint64_t blocks = file->size / MARKS_OF_BLOCK;

	file->chip.blocks = blocks;
	if (file->size == 0)
		complain("%s: is empty; expected %d marks for each block of a chip", file->id.name, MARKS_OF_BLOCK);
	else if (file->size % MARKS_OF_BLOCK != 0)
		complain("%s: ends at offset %" PRIu64 ", inside block %" PRIu64
			 "; expected %d marks for each block of a chip (" REFUSED_LENGTH ")",
			 file->id.name, file->size, blocks, MARKS_OF_BLOCK);
	else if (ream_table_pages(blocks) == 0)
		complain("%s: has %" PRIu64 " bytes, the marks of %" PRIu64
			 " block%s; expected those of a multiple of 4 blocks from %d to %d (" REFUSED_RANGE ")",
			 file->id.name, file->size, blocks, plural(blocks), REAM_BLOCKS_MIN, REAM_BLOCKS_MAX);
	else
		return true;
	return false;
}

/* ---- the whole */

/* Reads the marks of a file that is open. */
static bool read_open(struct markfile *file, struct factory *factory, const struct input *input)
{
	file->id = input->id;
	file->size = input->size;
	if (!(file->blocks_told ? has_told(file) : find_blocks(file)) || !dump_region_fits(&file->chip))
		return false;
	factory->n = file->chip.blocks;
	factory->size = (unsigned)file->chip.region_blocks;
	return input_read(input, 0, factory->marks, factory_marks_len(factory));
}

bool markfile_read(struct markfile *file, struct factory *factory, const char *path, const struct chip *told)
{
	struct input input;
	bool read;

	if (!take_told(file, told) || !input_open(&input, path))
		return false;
	read = read_open(file, factory, &input);
	input_close(&input);
	return read;
}

/* ---- telling */

void markfile_print(const struct markfile *file)
{
	const struct chip *chip = &file->chip;

	printf("dump: %" PRIu64 " blocks (%s), of each the marks of its first and second page\n", chip->blocks,
	       file->blocks_told ? "told" : "by its size");
	dump_print_region(chip, file->region_told);
}

void markfile_write(struct json *json, const struct markfile *file)
{
	json_object(json, "chip");
	dump_write_blocks(json, &file->chip, file->blocks_told, file->region_told);
	json_end(json);
	json_object(json, "dump");
	json_text(json, "name", file->id.name);
	json_number(json, "size", file->size);
	json_end(json);
}
