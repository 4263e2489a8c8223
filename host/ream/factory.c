/* The factory's marks of a chip. */
#include "factory.h"

#include <inttypes.h>
#include <stdio.h>
#include <stdlib.h>
#include <string.h>

#include "progress.h"
#include "reamsickle.h"
#include "tool.h"

enum { NO_MARK = 0xFF };

/* Does the dump show the marks of all blocks? */
static bool shows_all(const struct dump *dump, const char *expected)
{
	const bool second = dump->pages_per_block >= MARKS_OF_BLOCK;

	if (!dump->whole)
		complain("%s, as the last %s blocks alone do not show the marks of all", expected,
			 size_word(dump->region.size));
	else if (!second)
		complain("%s, as with 1 page a block the dump does not show the marks of second pages", expected);
	return dump->whole && second;
}

/* Reads the marks of a block. */
static bool read_block(const struct dump *dump, uint64_t block, uint8_t *marks)
{
	const uint64_t start = block * dump->pages_per_block * PAGE_BYTES;

	for (unsigned page = 0; page < MARKS_OF_BLOCK; page++)
		if (!input_read(&dump->input, start + page * PAGE_BYTES + PAGE_DATA, &marks[page], 1))
			return false;
	return true;
}

bool factory_read(struct factory *factory, const struct dump *dump, const char *expected)
{
	struct progress progress;
	bool read = true;

	if (!shows_all(dump, expected))
		return false;
	factory->n = dump->region.n;
	factory->size = dump->region.size;
	progress = progress_begin("reading marks", factory->n, NULL);
	for (uint64_t block = 0; block < factory->n && read; block++) {
		read = read_block(dump, block, &factory->marks[MARKS_OF_BLOCK * block]);
		progress_at(&progress, block);
	}
	progress_end(&progress);
	return read;
}

size_t factory_marks_len(const struct factory *factory)
{
	return (size_t)factory->n * MARKS_OF_BLOCK;
}

enum marked factory_marked(const struct factory *factory, uint64_t block)
{
	const uint8_t *marks = &factory->marks[MARKS_OF_BLOCK * block];

	if (marks[0] == 0)
		return marks[1] == 0 ? BOTH_PAGES : FIRST_PAGE;
	return marks[1] == 0 ? SECOND_PAGE : NOT_MARKED;
}

void factory_look_at_region(const struct factory *factory, struct notes *notes)
{
	char blocks[80] = "";
	unsigned number = 0;

	for (uint64_t block = factory->n - factory->size; block < factory->n; block++) {
		const size_t used = strlen(blocks);

		if (factory_marked(factory, block) == SECOND_PAGE)
			snprintf(blocks + used, sizeof(blocks) - used, "%s%" PRIu64, number++ == 0 ? "" : ", ", block);
	}
	if (number > 0)
		notes_add(notes,
			  "block%s %s of the region: marked on the second page alone, and so not readable as bad: a "
			  "copy of the table may go there. A zero step on such a block keeps it out",
			  plural(number), blocks);
}

void factory_clear(struct factory *factory, uint64_t block)
{
	for (unsigned page = 0; page < MARKS_OF_BLOCK; page++)
		factory->marks[MARKS_OF_BLOCK * block + page] = NO_MARK;
}

/* The numbers are judged and the lengths are those named, so the library does not refuse. */
void factory_bitmap(const struct factory *factory, uint8_t bitmap[MOST_BITMAP])
{
	const uint64_t answer = ream_first_bitmap(factory->n, factory->size, factory->marks,
						  factory_marks_len(factory), bitmap, ream_bitmap_size(factory->n));

	if (ream_ok(answer))
		return;
	complain("the first bitmap is refused: %s", ream_refusal_text(ream_refusal(answer)));
	abort();
}
