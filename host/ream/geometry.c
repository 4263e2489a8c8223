/* Does what stands in a dump contradict the numbers of blocks and pages that it is read with? */
#include "geometry.h"

#include <inttypes.h>
#include <stdarg.h>
#include <string.h>

#include "reamsickle.h"
#include "tool.h"

/* The pages at a dump's end that can belong to the region, whatever its size and the pages of a block are. They
 * are counted from the end: the last page is 1. */
enum { MOST_BACK = MOST_REGION_BLOCKS * MOST_PAGES_PER_BLOCK, FITTING_LEN = 240 };

struct tail {
	uint64_t pages;			/* of the dump */
	unsigned back;			/* so many of them are looked at */
	bool carries[MOST_BACK + 1];	/* a page a signature */
	bool any;
};

/* Where a copy's pages can stand: on the first pages of the last blocks. */
struct places {
	uint64_t pages_per_block;
	unsigned pages, blocks;
};

/* ---- signatures */

static bool is_unreadable(const struct dump *dump, uint64_t page)
{
	const uint64_t first = dump_offset(dump, 0, 0) / PAGE_BYTES;
	const uint64_t block = (page - first) / dump->pages_per_block;
	const uint64_t of_block = (page - first) % dump->pages_per_block;

	return page >= first && of_block < dump->region.pages &&
	       !region_reads_well(&dump->region, (unsigned)block, (unsigned)of_block);
}

static bool has_signature(const struct dump *dump, uint64_t page)
{
	uint8_t bytes[4];

	return input_read(&dump->input, page * PAGE_BYTES + PAGE_DATA + SIGNATURE, bytes, sizeof(bytes)) &&
	       (memcmp(bytes, "Bbt0", sizeof(bytes)) == 0 || memcmp(bytes, "1tbB", sizeof(bytes)) == 0);
}

static void look_for_signatures(const struct dump *dump, struct tail *tail)
{
	tail->pages = dump->input.size / PAGE_BYTES;
	tail->back = tail->pages < MOST_BACK ? (unsigned)tail->pages : MOST_BACK;
	tail->any = false;
	for (unsigned back = 1; back <= tail->back; back++) {
		const uint64_t page = tail->pages - back;

		tail->carries[back] = !is_unreadable(dump, page) && has_signature(dump, page);
		tail->any = tail->any || tail->carries[back];
	}
}

/* The places by the numbers that the dump is read with. */
static struct places places_of(const struct dump *dump)
{
	const struct places places = { dump->pages_per_block, dump->region.pages, dump->region.size };

	return places;
}

/* The block of a page, counted from the end: the last block is 1. */
static uint64_t block_of(unsigned back, uint64_t pages_per_block)
{
	return (back + pages_per_block - 1) / pages_per_block;
}

static bool can_stand(unsigned back, const struct places *places)
{
	const uint64_t block = block_of(back, places->pages_per_block);

	return block <= places->blocks && block * places->pages_per_block - back < places->pages;
}

/* The first page from the dump's end that carries a signature where none can stand; 0 where there is none. */
static unsigned misplaced(const struct tail *tail, const struct places *places)
{
	for (unsigned back = 1; back <= tail->back; back++)
		if (tail->carries[back] && !can_stand(back, places))
			return back;
	return 0;
}

/* Are so many blocks a region? One of any size, where that is not told. */
static bool is_region(const struct dump *dump, uint64_t blocks, unsigned size)
{
	return blocks == size ||
	       (!dump->region_told && blocks >= FEWEST_REGION_BLOCKS && blocks <= MOST_REGION_BLOCKS);
}

/* Is a dump of this size one of a whole chip with a region of `size` blocks, or of a region alone, with so many
 * pages a block? Gives the places then; P is that of the dump's region where N is not known. */
static bool divides(const struct dump *dump, uint64_t pages_per_block, unsigned size, struct places *places)
{
	const uint64_t block_size = pages_per_block * PAGE_BYTES, blocks = dump->input.size / block_size;
	const bool alone = is_region(dump, blocks, size);

	places->pages_per_block = pages_per_block;
	places->pages = alone ? dump->region.pages : ream_table_pages(blocks);
	places->blocks = alone ? (unsigned)blocks : size;
	return dump->input.size % block_size == 0 && (alone || ream_region_fits(blocks, size));
}

/* Adds words to a text that has room for FITTING_LEN. */
static void append(char *text, const char *format, ...)
{
	const size_t len = strlen(text);
	va_list arguments;

	va_start(arguments, format);
	vsnprintf(text + len, FITTING_LEN - len, format, arguments);
	va_end(arguments);
}

/* Tells the numbers of pages a block, among the powers of two from `least` on, with which every signature stands
 * where it can in a region of `size` blocks, each with the number of blocks. False where there is none. */
static bool tell_fitting(const struct dump *dump, const struct tail *tail, unsigned size, uint64_t least,
			 char words[FITTING_LEN])
{
	words[0] = '\0';
	for (uint64_t pages_per_block = MOST_PAGES_PER_BLOCK; pages_per_block >= least; pages_per_block /= 2) {
		struct places places;

		if (pages_per_block == dump->pages_per_block ||
		    !divides(dump, pages_per_block, size, &places) || misplaced(tail, &places) != 0)
			continue;
		append(words, "%s%" PRIu64 " page%s a block (", words[0] ? " or " : "", pages_per_block,
		       plural(pages_per_block));
		if (tail->pages / pages_per_block == places.blocks)
			append(words, "the last %s blocks)", size_word(places.blocks));
		else
			append(words, "%" PRIu64 " blocks)", tail->pages / pages_per_block);
	}
	return words[0] != '\0';
}

/* The smallest region that has the signature there, and every other that a larger one can have; 0 where none has
 * it. */
static unsigned reaching(const struct dump *dump, const struct tail *tail, unsigned back)
{
	struct places widest = places_of(dump);
	uint64_t size = 0;

	widest.blocks = region_largest(dump->region.n);
	if (!can_stand(back, &widest))
		return 0;
	for (back = 1; back <= tail->back; back++)
		if (tail->carries[back] && can_stand(back, &widest))
			size = block_of(back, widest.pages_per_block);
	return (unsigned)size;
}

/* ---- warnings */

/* Tells the smallest larger region in which, with other pages a block, every signature stands where it can. */
static void explain_by_both(const struct dump *dump, const struct tail *tail, char hint[FITTING_LEN])
{
	char fitting[FITTING_LEN];

	for (unsigned size = dump->region.size + 1; size <= MOST_REGION_BLOCKS; size++) {
		if (!tell_fitting(dump, tail, size, 1, fitting))
			continue;
		append(hint, "; %s with --region-blocks %u would fit (--pages-per-block)", fitting, size);
		return;
	}
}

/* What would have a signature stand there. */
static void explain(const struct dump *dump, const struct tail *tail, unsigned back, char hint[FITTING_LEN])
{
	struct places longer = places_of(dump), wider = longer;
	char fitting[FITTING_LEN];
	bool explained = true;

	hint[0] = '\0';
	longer.pages = MOST_PAGES;
	wider.blocks = reaching(dump, tail, back);
	if (dump->blocks_told && misplaced(tail, &longer) == 0)
		append(hint, "; a chip of more blocks has longer copies (--blocks)");
	else if (tell_fitting(dump, tail, dump->region.size, 1, fitting))
		append(hint, "; %s would fit (--pages-per-block)", fitting);
	else
		explained = misplaced(tail, &wider) == 0;
	if (wider.blocks != 0)
		append(hint, "; --region-blocks %u would have it found", wider.blocks);
	if (!explained)
		explain_by_both(dump, tail, hint);
}

static void warn_of_signature(const struct dump *dump, const struct tail *tail, unsigned back,
			      struct notes *warnings)
{
	const uint64_t page = tail->pages - back;
	const uint64_t first = dump->whole ? 0 : region_first(&dump->region);
	char hint[FITTING_LEN];

	explain(dump, tail, back, hint);
	notes_add(warnings,
		  "%s: block %" PRIu64 ", page %" PRIu64 ", at offset %" PRIu64
		  ", carries a table's signature, where none can stand: with %" PRIu64
		  " blocks of %" PRIu64 " page%s expected only on the first %u page%s of the last %s blocks%s",
		  dump->input.id.name, first + page / dump->pages_per_block, page % dump->pages_per_block,
		  page * PAGE_BYTES, dump->region.n, dump->pages_per_block, plural(dump->pages_per_block),
		  dump->region.pages, plural(dump->region.pages), size_word(dump->region.size), hint);
}

/* Copies in the last two blocks of a chip stand right for half as many pages a block too. So it is no doubt if
 * fewer pages a block fit besides those assumed, but it is one if more do. */
static void warn_of_assumed(const struct dump *dump, const struct tail *tail, struct notes *warnings)
{
	char fitting[FITTING_LEN];

	if (tell_fitting(dump, tail, dump->region.size, 2 * dump->pages_per_block, fitting))
		notes_add(warnings,
			  "%s: %" PRIu64 " pages a block are assumed, but every copy of the table stands right "
			  "for %s too; tell which by --pages-per-block",
			  dump->input.id.name, dump->pages_per_block, fitting);
}

/* The last byte behind the bitmap's end that is not FF, of the last page of a copy; 0 where there is none. */
static size_t last_behind(const struct region *region, unsigned block)
{
	const unsigned page = region->pages - 1;
	const uint8_t *bytes = region_page(region, block, page);

	if (!region_reads_well(region, block, page) ||
	    (!region_signed(region, block, page, PRIMARY) && !region_signed(region, block, page, MIRROR)))
		return 0;
	for (size_t i = PAGE_DATA; i > region_part_len(region, page); i--)
		if (bytes[i - 1] != 0xFF)
			return i - 1;
	return 0;
}

static void warn_of_bitmap(const struct dump *dump, struct notes *warnings)
{
	const struct region *region = &dump->region;
	const unsigned page = region->pages - 1;

	for (unsigned block = 0; block < region->size; block++) {
		const size_t last = last_behind(region, block);

		if (last == 0)
			continue;
		notes_add(warnings,
			  "%s: block %" PRIu64 ", page %u, at offset %" PRIu64
			  ", has %02X in byte %zu, behind the bitmap of %" PRIu64
			  " blocks, expected FF; a table of %zu blocks or more has an entry there",
			  dump->input.id.name, region_first(region) + block, page,
			  dump_offset(dump, block, page) + last, region_page(region, block, page)[last], last,
			  region->n, ((size_t)page * PAGE_DATA + last) * 4 + 4);
		return;
	}
}

void geometry_doubt(const struct dump *dump, struct notes *warnings)
{
	const struct places places = places_of(dump);
	struct tail tail;
	unsigned back;

	warn_of_bitmap(dump, warnings);
	look_for_signatures(dump, &tail);
	back = misplaced(&tail, &places);
	if (back != 0)
		warn_of_signature(dump, &tail, back, warnings);
	else if (tail.any && !dump->pages_told)
		warn_of_assumed(dump, &tail, warnings);
}
