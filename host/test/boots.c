/* Blocks of the small chip made to order. */
#include "boots.h"

#include <string.h>

#include "draw.h"
#include "reamsickle.h"
#include "small_pages.h"

/* The generation after each. */
static const unsigned after[4] = { 1, 2, 3, 0 };

static unsigned drawn_generation(struct test *test)
{
	return (unsigned)draw_below(&test->state, 4);
}

void boots_begin(struct test *test, struct boots *boots, unsigned number, enum order order)
{
	memset(boots, 0, sizeof(*boots));
	memset(boots->spares, 0xFF, sizeof(boots->spares));
	boots->number = number;
	for (unsigned i = 0; i < number; i++) {
		const unsigned k = order == SHUFFLED ? (unsigned)draw_below(&test->state, i + 1) : i;

		boots->place[i] = boots->place[k];
		boots->place[k] = (uint16_t)(order == FALLING ? number - 1 - i : i);
	}
}

/* ---- the spares of a block */

/* Flips a bit of the tag, of the path word and of the count word, and clears one of the status, each or not. */
static void wear(struct test *test, uint8_t *spare)
{
	for (unsigned part = TAG_BYTE; part <= COUNT_WORD; part++) {
		const unsigned place = place_drawn(test, (enum part)part) - DATA_BITS;

		if (draw_below(&test->state, 2) == 0)
			spare[place / 8] ^= (uint8_t)(1 << place % 8);
	}
	if (draw_below(&test->state, 2) == 0)
		spare[5] ^= (uint8_t)(1 << draw_below(&test->state, 8));
}

void boots_write_page(struct test *test, struct boots *boots, unsigned block, enum lent_page page, uint8_t tag,
		      uint32_t path)
{
	static const uint8_t data[512];
	uint8_t *spare = boots->spares[block][page];
	const uint64_t answer = ream_spare_write(data, sizeof(data), tag, path,
						 draw_below(&test->state, REAM_COUNT_MAX + 1), spare, SPARE_BYTES);

	expect(test, ream_ok(answer), "the spare of a block's page is written");
	draw_bytes(&test->state, spare + 8, 3);
	draw_bytes(&test->state, spare + 13, 3);
	spare[3] ^= (uint8_t)(draw(&test->state) & 0x20);
	spare[12] ^= (uint8_t)(draw(&test->state) & 0x20);
	if (boots->worn)
		wear(test, spare);
}

void boots_write(struct test *test, struct boots *boots, unsigned block, uint8_t tag, uint32_t path)
{
	boots_write_page(test, boots, block, FIRST, tag, path);
	boots_write_page(test, boots, block, LAST, tag, path);
}

/* ---- laying out */

static unsigned next_block(struct boots *boots)
{
	return boots->place[boots->used++];
}

static unsigned lay(struct test *test, struct boots *boots, uint32_t number, unsigned generation)
{
	const unsigned block = next_block(boots);

	boots_write(test, boots, block, REAM_TAG_BOOT, 4 * number + generation);
	return block;
}

void boots_lay(struct test *test, struct boots *boots, uint32_t number, unsigned generation)
{
	lay(test, boots, number, generation);
}

void boots_one(struct test *test, struct boots *boots, unsigned generation)
{
	boots->mapped_block[boots->mapped++] = (uint16_t)lay(test, boots, boots->next++, generation);
}

void boots_pair(struct test *test, struct boots *boots, unsigned generation)
{
	boots->mapped_block[boots->mapped++] = (uint16_t)lay(test, boots, boots->next, generation);
	boots->erased_block[boots->erased++] = (uint16_t)lay(test, boots, boots->next++, after[generation]);
}

void boots_wrong(struct test *test, struct boots *boots, enum wrong wrong)
{
	static const unsigned blocks[WRONGS] = {
		[MISSING] = 0, [SAME] = 2, [TWO_APART] = 2, [THREE] = 3, [FOUR] = 4,
	};
	unsigned generation = drawn_generation(test);

	if (!boots->refused)
		boots->smallest = boots->next;
	boots->refused = true;
	for (unsigned i = 0; i < blocks[wrong]; i++) {
		lay(test, boots, boots->next, generation);
		if (wrong == TWO_APART)
			generation = after[after[generation]];
		else if (wrong != SAME)
			generation = drawn_generation(test);
	}
	boots->next++;
}

/* The bytes of a block that is passed over, which would otherwise have this path. */
static void pass_over(struct test *test, struct boots *boots, unsigned block, uint32_t path, enum passed passed)
{
	static const uint8_t bad[] = { 0x00, 0x01, 0x80, 0xFC, 0xF0, 0x03, 0x3F };
	const uint8_t tag = tags[draw_below(&test->state, TAGS - 1)];
	const enum lent_page page = (enum lent_page)draw_below(&test->state, LENT_PAGES);
	const unsigned bit = (unsigned)draw_below(&test->state, 8);

	boots_write(test, boots, block, passed == OTHER_TAG ? tag : REAM_TAG_BOOT, path);
	switch (passed) {
	case ERASED:
		memset(boots->spares[block], 0xFF, sizeof(boots->spares[block]));
		break;
	case ZEROED:
		memset(boots->spares[block], 0, sizeof(boots->spares[block]));
		break;
	case OTHER_TAG_FIRST:
		boots_write_page(test, boots, block, FIRST, tag, path);
		break;
	case OTHER_TAG_LAST:
		boots_write_page(test, boots, block, LAST, tag, path);
		break;
	case LOST_TAG:
		boots->spares[block][page][4] = (uint8_t)(REAM_TAG_BOOT ^ 1 << bit ^ 1 << (bit + 3) % 8);
		break;
	case OTHER_GENERATION:
		boots_write_page(test, boots, block, LAST, REAM_TAG_BOOT, path ^ (1 + bit % 3));
		break;
	case OTHER_NUMBER:
		boots_write_page(test, boots, block, LAST, REAM_TAG_BOOT, path ^ 4 << bit);
		break;
	case BAD_FIRST:
	case BAD_LAST:
		boots->spares[block][passed == BAD_FIRST ? FIRST : LAST][5] = bad[bit % sizeof(bad)];
		break;
	case OTHER_MAGIC:
		spare_set_magic(test, boots->spares[block][page], (uint8_t)(0x56 ^ 1 << bit));
		break;
	case OTHER_TAG:
	case PASSED:
		break;
	}
}

void boots_pass(struct test *test, struct boots *boots, enum passed passed)
{
	const uint32_t number = (uint32_t)draw_below(&test->state, boots->next + 2);

	pass_over(test, boots, next_block(boots), 4 * number + drawn_generation(test), passed);
}

/* ---- calls */

void boots_set_up(struct test *test, enum entry_index index, const void *inputs)
{
	const struct boots *boots = inputs;

	call_begin_small(test, index, boots->number);
	call_lend(test, 0, boots->spares[0][0], sizeof(boots->spares[0]) * boots->number);
}

uint64_t boots_call(struct test *test, const struct boots *boots)
{
	boots_set_up(test, BOOT_MAP, boots);
	return call_compare(test);
}

/* The last call left so many blocks in a list, and kept what the list held past them. */
static bool lists(struct test *test, unsigned list, const uint16_t *block, unsigned count)
{
	const uint8_t *left = call_left(test, list), *lent = test->call.bytes[list];

	for (unsigned i = 0; i < count; i++)
		if (left[2 * i] != block[i] / 256 || left[2 * i + 1] != block[i] % 256)
			return false;
	return memcmp(left + 2 * count, lent + 2 * count, test->call.len[list] - 2 * count) == 0;
}

void expect_boots(struct test *test, const struct boots *boots)
{
	if (boots->refused) {
		expect_no_set(test, boots, boots->smallest);
		return;
	}
	boots_call(test, boots);
	expect_answer(test, (uint64_t)boots->mapped << 8 | (uint64_t)boots->erased << 24, "the counts of both lists");
	expect(test, lists(test, 1, boots->mapped_block, boots->mapped), "the mapped blocks, and nothing past them");
	expect(test, lists(test, 2, boots->erased_block, boots->erased), "the blocks to erase, and nothing past them");
}

void expect_no_set(struct test *test, const struct boots *boots, uint32_t number)
{
	boots_call(test, boots);
	expect_answer(test, refusal(REAM_BOOT_SET, number), "refusal 13 with the smallest boot number that is wrong");
}
