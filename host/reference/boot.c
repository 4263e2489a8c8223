/*
 * The map of the boot blocks, straight from document 02, "Map the boot blocks": number by number, from 0 to the
 * highest found, with a look at every block for each. Nothing here is shared with the library, not even its header.
 */
#include "reference.h"

#include <stdbool.h>
#include <string.h>

enum {
	MOST_BLOCKS = 1024,
	SPARE = 16,
	BOOT = 0x01,
	ANSWERED = 0,
	WRONG_LENGTH = 1,
	OUT_OF_RANGE = 2,
	NOT_A_SET = 13,
};

/* What is seen of a chip block. */
struct seen {
	bool counts;
	uint32_t number;
	unsigned generation;
};

/* What a boot number comes to: the chip block to keep, and one to erase or none. */
struct judged {
	bool right;
	size_t kept;
	bool erases;
	size_t erased;
};

/* Does a spare read without refusal, and is its tag boot? Then its path is given, "4 x boot number + generation". */
static bool boot_path(const uint8_t *spare, uint32_t *path)
{
	uint8_t fields[11];

	if (ref_spare_read(spare, SPARE, fields, sizeof(fields)) != ANSWERED || fields[1] != BOOT)
		return false;
	*path = (uint32_t)fields[2] << 24 | (uint32_t)fields[3] << 16 | (uint32_t)fields[4] << 8 | fields[5];
	return true;
}

/* "A block counts when both spares read without refusal, both tags are boot and both paths agree". */
static struct seen look_at(const uint8_t *spares)
{
	struct seen seen = { false, 0, 0 };
	uint32_t first, last;

	if (boot_path(spares, &first) && boot_path(spares + SPARE, &last) && first == last) {
		seen.counts = true;
		seen.number = first / 4;
		seen.generation = first % 4;
	}
	return seen;
}

/* One boot number. "Two blocks with one boot number and generations g and g + 1 modulo 4: keep the older, name the
 * newer for erasing." Any other pair, three or more and none are wrong. */
static struct judged judge(const struct seen *seen, size_t blocks, uint32_t number)
{
	struct judged judged = { false, 0, false, 0 };
	size_t found[2];
	size_t count = 0;

	for (size_t block = 0; block < blocks; block++) {
		if (!seen[block].counts || seen[block].number != number)
			continue;
		if (count < 2)
			found[count] = block;
		count++;
	}
	if (count == 1) {
		judged.right = true;
		judged.kept = found[0];
	}
	for (unsigned older = 0; older < 2 && count == 2; older++) {
		if ((seen[found[older]].generation + 1) % 4 == seen[found[1 - older]].generation)
			judged = (struct judged){ true, found[older], true, found[1 - older] };
	}
	return judged;
}

/* Writes a chip block at a place of a list, "two bytes (big endian) a block". */
static void list(uint8_t *bytes, size_t place, size_t block)
{
	bytes[2 * place] = (uint8_t)(block / 256);
	bytes[2 * place + 1] = (uint8_t)(block % 256);
}

/* "Two lent lists take the mapped and the to-be-erased chip blocks, each in boot order; the answer is both counts, and
 * places past them keep what they held." */
uint64_t ref_boot_map(uint64_t number, const uint8_t *spares, size_t spares_len, uint8_t *mapped, size_t mapped_len,
		      uint8_t *erased, size_t erased_len)
{
	struct seen seen[MOST_BLOCKS];
	uint8_t keep[2 * MOST_BLOCKS], erase[2 * MOST_BLOCKS];
	uint64_t numbers = 0, kept = 0, to_erase = 0;

	if (number > MOST_BLOCKS)
		return OUT_OF_RANGE;
	if (spares_len != 32 * number || mapped_len != 2 * number || erased_len != 2 * number)
		return WRONG_LENGTH;

	for (size_t block = 0; block < number; block++) {
		seen[block] = look_at(spares + 32 * block);
		if (seen[block].counts && seen[block].number >= numbers)
			numbers = (uint64_t)seen[block].number + 1;
	}
	for (uint32_t boot = 0; boot < numbers; boot++) {
		const struct judged judged = judge(seen, (size_t)number, boot);

		if (!judged.right)
			return NOT_A_SET + 256 * (uint64_t)boot;
		list(keep, (size_t)kept++, judged.kept);
		if (judged.erases)
			list(erase, (size_t)to_erase++, judged.erased);
	}
	memcpy(mapped, keep, 2 * (size_t)kept);
	memcpy(erased, erase, 2 * (size_t)to_erase);
	return ANSWERED + 256 * kept + 16777216 * to_erase;
}
