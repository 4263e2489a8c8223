/*
 * An example for drivers, in two parts. The small chip: writes the spare of a page, flips one bit as a worn
 * chip would, reads the page back through the library, and shows a refusal; then finds the boot blocks, as a loader
 * does. The large chip: makes its first pair of bad-block tables from the factory's marks; marks a block as gone bad
 * and reads the table back; then an erase fails in such an update, so that a block of the region is retired and the
 * update goes on in another; then power fails in an update, and a recovery settles the pair again.
 */
#include <inttypes.h>
#include <limits.h>
#include <stdbool.h>
#include <stdio.h>
#include <stdlib.h>
#include <string.h>

#include "reamsickle.h"

/* Says why a call was refused. */
static void print_refusal(const char *call, uint64_t answer)
{
	printf("%s: refusal %u (%s), detail %u\n", call, ream_refusal(answer),
	       ream_refusal_text(ream_refusal(answer)), ream_detail(answer));
}

static void print_fields(const uint8_t bytes[REAM_FIELDS_SIZE])
{
	const struct ream_fields fields = ream_fields_get(bytes);

	printf("  status %02X, tag %02X, path %" PRIu32 ", count %" PRIu32 ", repairs %u\n", fields.status,
	       fields.tag, fields.path, fields.count, fields.repairs);
}

static int small_chip(void)
{
	uint8_t written[REAM_SMALL_DATA_SIZE];
	uint8_t data[REAM_SMALL_DATA_SIZE];
	uint8_t spare[REAM_SMALL_SPARE_SIZE];
	uint8_t fields[REAM_FIELDS_SIZE];
	uint64_t answer;

	for (unsigned i = 0; i < sizeof(written); i++)
		written[i] = (uint8_t)(7 * i);
	memcpy(data, written, sizeof(data));

	/* A boot page: boot number 1, generation 2, in a block that was erased 1,000 times. */
	answer = ream_spare_write(data, sizeof(data), REAM_TAG_BOOT, 4 * 1 + 2, 1000, spare, sizeof(spare));
	if (!ream_ok(answer)) {
		print_refusal("ream_spare_write", answer);
		return EXIT_FAILURE;
	}
	printf("spare written:");
	for (unsigned i = 0; i < sizeof(spare); i++)
		printf(" %02X", spare[i]);
	printf("\n");

	/* One bit flips on the chip; the read puts it right in place. */
	data[300] ^= 0x10;
	answer = ream_page_read(data, sizeof(data), spare, sizeof(spare), fields, sizeof(fields));
	if (!ream_ok(answer)) {
		print_refusal("ream_page_read", answer);
		return EXIT_FAILURE;
	}
	printf("page read with bit 4 of byte 300 flipped:\n");
	print_fields(fields);
	printf("  the data is %s\n", memcmp(data, written, sizeof(data)) == 0 ? "as written" : "NOT as written");

	/* Two bits of one half flip: the read is refused and changes nothing. */
	data[300] ^= 0x10;
	data[301] ^= 0x10;
	answer = ream_page_read(data, sizeof(data), spare, sizeof(spare), fields, sizeof(fields));
	print_refusal("page read with two bits of a half flipped", answer);
	return ream_refusal(answer) == REAM_UNREPAIRABLE ? EXIT_SUCCESS : EXIT_FAILURE;
}

/* Writes the spares of a boot block, of its first page and of its last. */
static bool lay_out_boot(uint8_t *spares, uint64_t number, uint64_t generation)
{
	static const uint8_t data[REAM_SMALL_DATA_SIZE];
	uint64_t answer = REAM_OK;

	for (unsigned i = 0; i < 2 && ream_ok(answer); i++)
		answer = ream_spare_write(data, sizeof(data), REAM_TAG_BOOT, 4 * number + generation, 1000,
					  spares + i * REAM_SMALL_SPARE_SIZE, REAM_SMALL_SPARE_SIZE);
	if (!ream_ok(answer))
		print_refusal("ream_spare_write", answer);
	return ream_ok(answer);
}

static int boot_blocks(void)
{
	uint8_t spares[4][REAM_BOOT_SPARES_SIZE];
	uint8_t mapped[4 * REAM_BOOT_BLOCK_SIZE], erased[4 * REAM_BOOT_BLOCK_SIZE];
	uint64_t answer;

	/* Block 1 is erased. Power failed when boot number 1 had been written to block 3, before block 0 was erased. */
	memset(spares, 0xFF, sizeof(spares));
	if (!lay_out_boot(spares[2], 0, 2) || !lay_out_boot(spares[0], 1, 3) || !lay_out_boot(spares[3], 1, 0))
		return EXIT_FAILURE;
	answer = ream_boot_map(4, spares[0], sizeof(spares), mapped, sizeof(mapped), erased, sizeof(erased));
	if (!ream_ok(answer)) {
		print_refusal("ream_boot_map", answer);
		return EXIT_FAILURE;
	}
	for (unsigned i = 0; i < ream_mapped_count(answer); i++)
		printf("boot number %u is in block %u\n", i, ream_boot_block(mapped, i));
	for (unsigned i = 0; i < ream_erased_count(answer); i++)
		printf("block %u is to be erased\n", ream_boot_block(erased, i));
	return EXIT_SUCCESS;
}

/* A chip of 1,024 blocks: a copy of its table fills one page. The last four blocks are the region, as on the chips
 * in service. */
enum {
	BLOCKS = 1024,
	REGION = REAM_REGION_BLOCKS_MIN,
	MARKS = 2 * BLOCKS,
	BITMAP_SIZE = BLOCKS / 4,
	PAGES = 1,
	REGION_PAGES = REGION * PAGES,
	FIRST_VERSION = 1,	/* of the first pair; any will do */
};

/* The region as it is lent. */
struct region {
	uint8_t image[REGION_PAGES * REAM_LARGE_PAGE_SIZE];
	uint8_t status[REGION_PAGES];
};

/* ---- the chip: its region in memory, with a block that is worn. Steps give false where the chip reports that they
 * failed. */

struct chip {
	struct region region;
	unsigned worn;		/* erases of this block fail; no block 0 lies in a region */
};

/* A page of the chip, by its block and its place in it. */
static uint8_t *chip_page(struct chip *chip, unsigned block, unsigned page)
{
	return chip->region.image + ((block - (BLOCKS - REGION)) * PAGES + page) * REAM_LARGE_PAGE_SIZE;
}

static bool chip_erase(struct chip *chip, unsigned block)
{
	if (block == chip->worn)
		return false;
	memset(chip_page(chip, block, 0), 0xFF, PAGES * REAM_LARGE_PAGE_SIZE);
	return true;
}

static bool chip_write(struct chip *chip, unsigned block, unsigned page, const uint8_t *bytes)
{
	memcpy(chip_page(chip, block, page), bytes, REAM_LARGE_PAGE_SIZE);
	return true;
}

static bool chip_write_zeros(struct chip *chip, unsigned block)
{
	memset(chip_page(chip, block, 0) + REAM_LARGE_DATA_SIZE, 0, REAM_LARGE_OOB_SIZE);
	return true;
}

/* ---- plans */

/* A plan, with what it was made from. */
struct plan {
	struct region snapshot;
	const uint8_t *wanted;			/* of an update; a recovery has none */
	uint8_t failed[REAM_FAILED_MAX];	/* the steps that failed, oldest first */
	size_t failed_count;
	uint8_t steps[REAM_STEPS_SIZE];
	unsigned count;
};

/* Plans from the snapshot and the steps that failed. */
static uint64_t plan_make(struct plan *plan)
{
	const struct region *from = &plan->snapshot;
	uint64_t answer;

	if (plan->wanted)
		answer = ream_update_plan(BLOCKS, REGION, from->image, sizeof(from->image), from->status,
					  sizeof(from->status), plan->wanted, BITMAP_SIZE, plan->failed,
					  plan->failed_count, plan->steps, sizeof(plan->steps));
	else
		answer = ream_recovery_plan(BLOCKS, REGION, from->image, sizeof(from->image), from->status,
					    sizeof(from->status), plan->failed, plan->failed_count, plan->steps,
					    sizeof(plan->steps));
	plan->count = ream_ok(answer) ? ream_step_count(answer) : 0;
	return answer;
}

/* A first plan, for the region as it is. */
static uint64_t plan_first(struct plan *plan, const struct chip *chip, const uint8_t *wanted)
{
	plan->snapshot = chip->region;
	plan->wanted = wanted;
	plan->failed_count = 0;
	return plan_make(plan);
}

/* The plan after step i failed. The list has room for it: the longest that can come about is refused, and ends the
 * plan. */
static uint64_t plan_again(struct plan *plan, unsigned i)
{
	plan->failed[plan->failed_count++] = (uint8_t)i;
	return plan_make(plan);
}

/* The page that step i of a plan writes. */
static uint64_t plan_page(const struct plan *plan, unsigned i, uint8_t page[REAM_LARGE_PAGE_SIZE])
{
	const struct region *from = &plan->snapshot;

	if (plan->wanted)
		return ream_update_page(BLOCKS, REGION, from->image, sizeof(from->image), from->status,
					sizeof(from->status), plan->wanted, BITMAP_SIZE, plan->failed,
					plan->failed_count, i, page, REAM_LARGE_PAGE_SIZE);
	return ream_recovery_page(BLOCKS, REGION, from->image, sizeof(from->image), from->status,
				  sizeof(from->status), plan->failed, plan->failed_count, i, page,
				  REAM_LARGE_PAGE_SIZE);
}

/* Carries out step i of a plan, and tells whether it was done: the chip may report that it failed. */
static uint64_t plan_step(const struct plan *plan, unsigned i, struct chip *chip, bool *done)
{
	const struct ream_step step = ream_step_get(plan->steps + REAM_STEP_SIZE * i);
	uint8_t page[REAM_LARGE_PAGE_SIZE];
	uint64_t answer = REAM_OK;

	switch (step.kind) {
	case REAM_ERASE:
		printf("  step %u: erase block %u\n", i, step.block);
		*done = chip_erase(chip, step.block);
		break;
	case REAM_ZERO:
		printf("  step %u: write zeros to the OOB of page 0 of block %u\n", i, step.block);
		*done = chip_write_zeros(chip, step.block);
		break;
	case REAM_WRITE:
		printf("  step %u: write page %u of block %u\n", i, step.page, step.block);
		answer = plan_page(plan, i, page);
		*done = ream_ok(answer) && chip_write(chip, step.block, step.page, page);
		break;
	}
	return answer;
}

/* Plans an update to `wanted`, or a recovery where that is null, and carries out its steps up to the end or
 * to where power fails, after so many steps. Gives the refusal that ended it, or REAM_OK. */
static unsigned carry_out(struct chip *chip, const uint8_t *wanted, unsigned power)
{
	struct plan plan;
	uint64_t answer = plan_first(&plan, chip, wanted);
	unsigned i = 0;

	while (ream_ok(answer) && i < plan.count && power-- > 0) {
		bool done = false;

		answer = plan_step(&plan, i, chip, &done);
		if (done) {
			i++;
		} else if (ream_ok(answer)) {
			printf("  step %u failed; the plan becomes:\n", i);
			answer = plan_again(&plan, i);
			i = 0;
		}
	}
	if (!ream_ok(answer))
		print_refusal("carrying out a plan", answer);
	return ream_refusal(answer);
}

/* Reads the table, and says which version it has, where it is and what it tells of a block. */
static unsigned read_table(const struct chip *chip, uint8_t bitmap[BITMAP_SIZE], unsigned block)
{
	const struct region *region = &chip->region;
	const uint64_t answer = ream_table_read(BLOCKS, REGION, region->image, sizeof(region->image), region->status,
						sizeof(region->status), bitmap, BITMAP_SIZE);

	if (ream_ok(answer))
		printf("table read: version %u, primary in block %u, mirror in block %u; entry of block %u is %u\n",
		       ream_version(answer), ream_primary_block(answer), ream_mirror_block(answer), block,
		       ream_entry_get(bitmap, block));
	else
		print_refusal("table read", answer);
	return ream_refusal(answer);
}

/* Updates the table to one with a block marked late, with power for so many steps, and reads it back. Whatever ended
 * the plan, its last step, a power cut or a refusal after a failed step, reading tells whether a recovery is due. */
static unsigned mark_late(struct chip *chip, uint8_t bitmap[BITMAP_SIZE], unsigned block, unsigned power)
{
	ream_entry_set(bitmap, block, REAM_ENTRY_LATE);
	carry_out(chip, bitmap, power);
	return read_table(chip, bitmap, block);
}

/* ---- a chip's first pair of tables, by the header's six lines */

/* The highest block of the region that is certainly not readable as bad, as OOB byte 0 of its first page is not 0; 0
 * where there is none. */
static unsigned block_for_primary(struct chip *chip)
{
	for (unsigned block = BLOCKS - 1; block >= BLOCKS - REGION; block--)
		if (chip_page(chip, block, 0)[REAM_LARGE_DATA_SIZE] != 0)
			return block;
	return 0;
}

/* Line 4: writes the primary to a block, and tells whether that was done: the chip may report that a step
 * failed. */
static uint64_t write_primary(struct chip *chip, unsigned block, const uint8_t bitmap[BITMAP_SIZE], bool *done)
{
	uint8_t page[REAM_LARGE_PAGE_SIZE];
	uint64_t answer = REAM_OK;

	printf("  erase block %u\n", block);
	*done = chip_erase(chip, block);
	for (unsigned i = 0; i < PAGES && *done; i++) {
		printf("  write page %u of block %u\n", i, block);
		answer = ream_table_page(BLOCKS, REGION, bitmap, BITMAP_SIZE, REAM_PRIMARY, FIRST_VERSION, i, page,
					 sizeof(page));
		*done = ream_ok(answer) && chip_write(chip, block, i, page);
	}
	return answer;
}

/* Lines 2 to 5, once: the block, the bitmap, the primary, and a zero step where a step failed. */
static uint64_t try_primary(struct chip *chip, uint8_t marks[MARKS])
{
	const unsigned block = block_for_primary(chip);
	uint8_t bitmap[BITMAP_SIZE];
	uint64_t answer;
	bool done = false;

	if (block == 0)
		return REAM_NO_TARGET;
	marks[2 * block] = marks[2 * block + 1] = 0xFF;
	answer = ream_first_bitmap(BLOCKS, REGION, marks, MARKS, bitmap, sizeof(bitmap));
	if (ream_ok(answer))
		answer = write_primary(chip, block, bitmap, &done);
	if (ream_ok(answer) && !done)
		chip_write_zeros(chip, block);
	return answer;
}

/* Makes the first pair from the marks, OOB byte 0 of the first and of the second page of each block. After a power cut
 * it is called again. Gives the refusal that ended it, or REAM_OK. */
static unsigned make_first_pair(struct chip *chip, uint8_t marks[MARKS])
{
	struct plan plan;
	uint64_t answer = REAM_OK;

	while (ream_ok(answer) && ream_refusal(plan_first(&plan, chip, NULL)) == REAM_NO_COPY)
		answer = try_primary(chip, marks);
	if (!ream_ok(answer)) {
		print_refusal("making the first pair", answer);
		return ream_refusal(answer);
	}
	return carry_out(chip, NULL, UINT_MAX);
}

/* ---- a chip's life */

static int large_chip(void)
{
	struct chip chip = { .worn = 0 };
	uint8_t marks[MARKS], bitmap[BITMAP_SIZE];

	/* A chip without tables, of which the factory marked block 3 on its first page and block 7 on its second. The
	 * primary and then the mirror are written. */
	memset(chip.region.image, 0xFF, sizeof(chip.region.image));
	memset(chip.region.status, REAM_READ_WELL, sizeof(chip.region.status));
	memset(marks, 0xFF, sizeof(marks));
	marks[2 * 3] = 0;
	marks[2 * 7 + 1] = 0;
	printf("first pair, blocks 3 and 7 marked by the factory:\n");
	if (make_first_pair(&chip, marks) != REAM_OK || read_table(&chip, bitmap, 7) != REAM_OK)
		return EXIT_FAILURE;

	/* Block 17 went bad in use: the table read, with that entry set, is the one wanted. */
	printf("update, block 17 late:\n");
	if (mark_late(&chip, bitmap, 17, UINT_MAX) != REAM_OK)
		return EXIT_FAILURE;

	/* So did block 18, and the mirror's own block cannot be erased: it is retired, and the mirror moves. */
	printf("update, block 18 late, erases of block 1022 fail:\n");
	chip.worn = 1022;
	if (mark_late(&chip, bitmap, 18, UINT_MAX) != REAM_OK)
		return EXIT_FAILURE;

	/* So did block 19, but power fails after two steps: the primary is new, the mirror still old. */
	printf("update, block 19 late, power cut after step 1:\n");
	if (mark_late(&chip, bitmap, 19, 2) != REAM_NOT_SETTLED)
		return EXIT_FAILURE;

	/* A recovery brings the mirror up to the primary. */
	printf("recovery:\n");
	if (carry_out(&chip, NULL, UINT_MAX) != REAM_OK || read_table(&chip, bitmap, 19) != REAM_OK)
		return EXIT_FAILURE;
	return EXIT_SUCCESS;
}

int main(void)
{
	if (small_chip() != EXIT_SUCCESS || boot_blocks() != EXIT_SUCCESS)
		return EXIT_FAILURE;
	return large_chip();
}
