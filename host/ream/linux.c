/* Marks that Linux leaves in the tables of a chip that it writes. */
#include "linux.h"

#include <inttypes.h>

#include "reamsickle.h"

/* Linux keeps its tables in so many of the last blocks, unless its driver's descriptors say otherwise. */
enum { NAND_BBT_SCAN_MAXBLOCKS = 4 };

/* ---- pages */

static bool carries_signature(const struct region *region, unsigned block, unsigned page)
{
	return region_reads_well(region, block, page) && (region_signed(region, block, page, PRIMARY) ||
							  region_signed(region, block, page, MIRROR));
}

/* Does the first page of a block carry a signature, and no other, though all of them read well? */
static bool header_on_first_only(const struct region *region, unsigned block)
{
	if (region->pages == 1 || !carries_signature(region, block, 0))
		return false;
	for (unsigned page = 1; page < region->pages; page++)
		if (!region_reads_well(region, block, page) || carries_signature(region, block, page))
			return false;
	return true;
}

/* Has a page of such a block behind the first an entry that is not good? */
static bool entries_behind(const struct region *region, unsigned block)
{
	for (unsigned page = 1; page < region->pages; page++)
		for (size_t i = 0; i < region_part_len(region, page); i++)
			if (region_page(region, block, page)[i] != 0xFF)
				return true;
	return false;
}

/* What else leaves a header on the first page only. Nothing does, if entries stand behind it. If no copy is
 * good it was no power cut in an update or a recovery, but may be one in the making of a first pair, or N is told
 * wrong. */
static const char *else_by(const struct region *region, unsigned block, unsigned refusal)
{
	if (entries_behind(region, block))
		return "";
	if (refusal == REAM_NO_COPY)
		return ", as a power cut in the making of a first pair leaves it, and as a chip of 8,192 blocks or "
		       "fewer has it";
	return ", and as a power cut after its first page leaves it";
}

static void note_header(const struct region *region, unsigned block, unsigned refusal, struct notes *notes)
{
	if (!header_on_first_only(region, block))
		return;
	notes_add(notes,
		  "block %" PRIu64 " is a copy with its header on page 0 only, as Linux writes it above 8,192 "
		  "blocks%s. The library wants the header on all %u pages (docs/LINUX.md)",
		  region_first(region) + block, else_by(region, block, refusal), region->pages);
}

/* Under Linux a block of a copy that goes bad keeps its signature and has 0 in OOB 0. */
static void note_given_up(const struct region *region, unsigned block, struct notes *notes)
{
	if (!carries_signature(region, block, 0) || region_page(region, block, 0)[PAGE_DATA] != 0)
		return;
	notes_add(notes,
		  "block %" PRIu64 " carries a signature and 0 in OOB 0, as Linux leaves a table's block that "
		  "went bad. If it did, lend its first page with the OOB all 0 (docs/LINUX.md)",
		  region_first(region) + block);
}

void linux_look_at_pages(const struct region *region, unsigned refusal, struct notes *notes)
{
	for (unsigned block = 0; block < region->size; block++) {
		note_header(region, block, refusal, notes);
		if (refusal == REAM_SEVERAL_COPIES)
			note_given_up(region, block, notes);
	}
}

/* ---- entries */

static uint64_t count(const struct settled *table, uint64_t from, uint64_t to, unsigned entry)
{
	uint64_t number = 0;

	for (uint64_t block = from; block < to; block++)
		number += ream_entry_get(table->bitmap, block) == entry;
	return number;
}

/* Linux writes a block that went bad in use as 10 and never writes 01, and leaves the entries of the blocks that
 * its tables have good or factory: the last four, whatever the region's size, and more where its driver says so.
 * A table like that may be its own; one with 01, or with 10 at the last four, has another writer. */
void linux_look_at_entries(const struct settled *table, uint64_t n, struct notes *notes)
{
	const uint64_t last = n - NAND_BBT_SCAN_MAXBLOCKS, reserved = count(table, 0, last, REAM_ENTRY_RESERVED);

	if (reserved == 0 || count(table, 0, n, REAM_ENTRY_LATE) != 0 ||
	    count(table, last, n, REAM_ENTRY_RESERVED) != 0)
		return;
	notes_add(notes,
		  "%" PRIu64 " entr%s reserved (10) and none late (01), as in a table that Linux writes: it "
		  "marks a block that went bad in use as 10. If Linux has written this chip, reserved means worn "
		  "(docs/LINUX.md)",
		  reserved, reserved == 1 ? "y is" : "ies are");
}
