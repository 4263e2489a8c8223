/* Maps of the boot blocks: ream_boot_map. */
#include "tests.h"

#include <string.h>

#include "boots.h"
#include "draw.h"
#include "reamsickle.h"
#include "small_pages.h"

/* ---- bytes written out */

static void try_bytes(struct test *test, struct boots *boots)
{
	static const uint8_t mapped[4] = { 0x00, 0x02, 0x01, 0x04 }, erased[2] = { 0x00, 0x01 };

	test->trying = "boot number 0 in block 2, boot number 1 in block 260 and, newer, in block 1";
	boots_begin(test, boots, 261, RISING);
	boots_write(test, boots, 1, REAM_TAG_BOOT, 4 * 1 + 0);
	boots_write(test, boots, 2, REAM_TAG_BOOT, 4 * 0 + 2);
	boots_write(test, boots, 260, REAM_TAG_BOOT, 4 * 1 + 3);
	boots_call(test, boots);
	expect_answer(test, 0x01000200, "two blocks are mapped, one is to be erased");
	expect(test, memcmp(call_left(test, 1), mapped, 4) == 0, "block 2, then block 260");
	expect(test, memcmp(call_left(test, 2), erased, 2) == 0, "block 1");

	test->trying = "boot number 1 alone, and the highest there is";
	boots_begin(test, boots, 3, RISING);
	boots_write(test, boots, 1, REAM_TAG_BOOT, 4 * 1);
	boots_call(test, boots);
	expect_answer(test, 13, "refusal 13 with boot number 0");
	boots_write(test, boots, 1, REAM_TAG_BOOT, REAM_PATH_MAX);
	boots_call(test, boots);
	expect_answer(test, 13, "refusal 13 with boot number 0");
	boots_write(test, boots, 0, REAM_TAG_BOOT, 4 * 0);
	boots_write(test, boots, 2, REAM_TAG_BOOT, 4 * 1);
	boots_call(test, boots);
	expect_answer(test, 0x020D, "refusal 13 with boot number 2");
}

static void try_no_boot_block(struct test *test, struct boots *boots)
{
	test->trying = "no block at all, and no boot block";
	for (unsigned number = 0; number <= 3 * PASSED; number++) {
		boots_begin(test, boots, number, SHUFFLED);
		for (unsigned i = 0; i < number; i++)
			boots_pass(test, boots, (enum passed)(i % PASSED));
		boots_call(test, boots);
		expect_answer(test, REAM_OK, "both lists are empty");
		expect_boots(test, boots);
	}
}

/* ---- the blocks of one boot number, among others */

enum { NUMBERS = 5 };

/* Boot numbers 0 to 4, all but number `at` in one block, with blocks that are passed over between them. The blocks of
 * number `at` have these generations, in the order in which blocks are used. */
static void lay_generations(struct test *test, struct boots *boots, unsigned at, const unsigned *generation,
			    unsigned count)
{
	while (boots->next < NUMBERS) {
		boots_pass(test, boots, (enum passed)draw_below(&test->state, PASSED));
		if (boots->next != at) {
			boots_one(test, boots, (unsigned)draw_below(&test->state, 4));
			continue;
		}
		for (unsigned i = 0; i < count; i++)
			boots_lay(test, boots, at, generation[i]);
		boots->next++;
	}
}

/* All pairs of generations. Those of right pairs are written out. */
static void try_pairs(struct test *test, struct boots *boots)
{
	static const unsigned right[4][2] = { { 0, 1 }, { 1, 2 }, { 2, 3 }, { 3, 0 } };

	test->trying = "right pairs of generations";
	for (unsigned order = 0; order < ORDERS; order++) {
		for (unsigned i = 0; i < 4 * NUMBERS; i++) {
			boots_begin(test, boots, 20, (enum order)order);
			for (unsigned number = 0; number < NUMBERS; number++) {
				if (number == i % NUMBERS)
					boots_pair(test, boots, right[i / NUMBERS][0]);
				else
					boots_one(test, boots, (unsigned)draw_below(&test->state, 4));
			}
			expect_boots(test, boots);
		}
	}

	test->trying = "all pairs of generations";
	for (unsigned order = 0; order < ORDERS; order++) {
		for (unsigned i = 0; i < 16 * NUMBERS; i++) {
			const unsigned generation[2] = { i % 4, i / 4 % 4 }, at = i / 16;
			unsigned is_right = 0;

			boots_begin(test, boots, 20, (enum order)order);
			lay_generations(test, boots, at, generation, 2);
			boots_call(test, boots);
			for (unsigned k = 0; k < 4; k++)
				is_right += (right[k][0] == generation[0] && right[k][1] == generation[1]) ||
					    (right[k][0] == generation[1] && right[k][1] == generation[0]);
			expect_answer(test, is_right ? refusal(REAM_OK, NUMBERS) | 1 << 24 :
				      refusal(REAM_BOOT_SET, at), "g and g + 1 are answered, others refused");
		}
	}
}

/* All triples of generations, and all sets of four: each is refused, also where two of them are a right pair. */
static void try_several(struct test *test, struct boots *boots)
{
	test->trying = "three and four blocks of a boot number";
	for (unsigned i = 0; i < 64 + 256; i++) {
		const unsigned generation[4] = { i % 4, i / 4 % 4, i / 16 % 4, i / 64 % 4 };

		for (unsigned at = 0; at < NUMBERS; at++) {
			if (left_out(test))
				continue;
			boots_begin(test, boots, 20, (enum order)(i % ORDERS));
			lay_generations(test, boots, at, generation, i < 64 ? 3 : 4);
			expect_no_set(test, boots, at);
		}
	}

	test->trying = "many blocks of one boot number";
	for (unsigned count = 3; count <= MOST_BOOTS; count += count < 8 ? 1 : 127) {
		boots_begin(test, boots, MOST_BOOTS, SHUFFLED);
		for (unsigned i = 0; i < count; i++)
			boots_lay(test, boots, 0, i % 4);
		expect_no_set(test, boots, 0);
	}
}

/* ---- which boot numbers there are */

/* All sets of numbers below 8: each is answered exactly if it has all numbers below some one. */
static void try_sets(struct test *test, struct boots *boots)
{
	test->trying = "all sets of boot numbers below 8";
	for (unsigned set = 0; set < 256; set++) {
		for (unsigned order = 0; order < ORDERS; order++) {
			boots_begin(test, boots, 16, (enum order)order);
			for (unsigned number = 0; set >> number != 0; number++) {
				if ((set >> number & 1) == 0)
					boots_wrong(test, boots, MISSING);
				else if (draw_below(&test->state, 4) == 0)
					boots_pair(test, boots, (unsigned)draw_below(&test->state, 4));
				else
					boots_one(test, boots, (unsigned)draw_below(&test->state, 4));
			}
			expect_boots(test, boots);
		}
	}
}

/* Numbers 0 to 2, and one that is far: too large for the number of blocks, or one that a cut to fewer bits would take
 * for a small one. In one block, in a right pair and in a wrong one 3 is missing; alone, 0 is. */
static void expect_far(struct test *test, struct boots *boots, uint32_t far)
{
	for (unsigned i = 0; i < 3 * ORDERS; i++) {
		boots_begin(test, boots, 8, (enum order)(i % ORDERS));
		for (unsigned number = 0; number < 3; number++)
			boots_one(test, boots, (unsigned)draw_below(&test->state, 4));
		boots_lay(test, boots, far, 1);
		if (i / ORDERS > 0)
			boots_lay(test, boots, far, i / ORDERS);
		expect_no_set(test, boots, 3);
	}
	boots_begin(test, boots, 8, SHUFFLED);
	boots_lay(test, boots, far, 1);
	expect_no_set(test, boots, 0);
}

static void try_far(struct test *test, struct boots *boots)
{
	static const uint32_t far[] = {
		4, 5, 6, 7, 8, 9, 10, 1022, 1023, 1024, 1025, 1026, 1027, 2047, 2048, 65535, 65536, (1 << 24) - 1,
	};

	test->trying = "a boot number that is far";
	for (unsigned i = 0; i < sizeof(far) / sizeof(far[0]); i++)
		expect_far(test, boots, far[i]);
	for (unsigned bit = 3; bit < 24; bit++)
		for (uint32_t low = 0; low <= 4; low++)
			if (!left_out(test))
				expect_far(test, boots, ((uint32_t)1 << bit) + low);
}

/* Two numbers that are wrong, in each way: the smaller one is named. */
static void try_smallest(struct test *test, struct boots *boots)
{
	test->trying = "two wrong boot numbers";
	for (unsigned ways = 0; ways < WRONGS * WRONGS; ways++) {
		for (unsigned pair = 0; pair < 8 * 8; pair++) {
			const unsigned first = pair / 8, second = pair % 8;

			if (first >= second || left_out(test))
				continue;
			boots_begin(test, boots, 20, (enum order)(pair % ORDERS));
			while (boots->next <= 8) {
				if (boots->next == first)
					boots_wrong(test, boots, (enum wrong)(ways / WRONGS));
				else if (boots->next == second)
					boots_wrong(test, boots, (enum wrong)(ways % WRONGS));
				else
					boots_one(test, boots, (unsigned)draw_below(&test->state, 4));
			}
			expect_boots(test, boots);
		}
	}
}

/* ---- which blocks count */

/* The blocks that are tried: one of a boot number in the middle, one of the highest, and both of a pair. */
enum tried { MIDDLE, OLDER, NEWER, HIGHEST, TRIED };

static const unsigned tried_block[TRIED] = { 1, 3, 4, 5 };
static const uint32_t tried_path[TRIED] = { 4 * 1 + 2, 4 * 2 + 3, 4 * 2 + 0, 4 * 3 + 0 };

/* The scene around them. */
static void begin_counting(struct test *test, struct boots *boots)
{
	boots_begin(test, boots, 7, RISING);
	boots_one(test, boots, 3);
	boots_one(test, boots, 2);
	boots_pass(test, boots, ERASED);
	boots_pair(test, boots, 3);
	boots_one(test, boots, 0);
}

/* Expects the map with a block, or without it. */
static void expect_counted(struct test *test, const struct boots *boots, enum tried tried, bool counts)
{
	struct boots without = *boots;

	if (!counts && tried == MIDDLE) {
		without.refused = true;
		without.smallest = 1;
	} else if (!counts && tried == HIGHEST) {
		without.mapped--;
	} else if (!counts) {
		without.mapped_block[2] = (uint16_t)tried_block[tried == OLDER ? NEWER : OLDER];
		without.erased--;
	}
	expect_boots(test, &without);
}

/* How many bits of a byte are 1. */
static unsigned ones(unsigned byte)
{
	unsigned count = 0;

	for (; byte != 0; byte /= 2)
		count += byte % 2;
	return count;
}

/* Each bit of a spare flipped; all tag bytes, status bytes and magics. */
static void try_spare_bytes(struct test *test, const struct boots *scene, enum tried tried, enum lent_page page)
{
	const unsigned block = tried_block[tried];
	struct boots boots;

	test->trying = "one flipped bit of a spare";
	for (unsigned bit = 0; bit < 8 * SPARE_BYTES; bit++) {
		boots = *scene;
		boots.spares[block][page][bit / 8] ^= (uint8_t)(1 << bit % 8);
		expect_counted(test, &boots, tried, true);
	}
	for (unsigned byte = 0; byte < 256; byte++) {
		boots = *scene;
		test->trying = "all tag bytes of one page";
		boots.spares[block][page][4] = (uint8_t)byte;
		expect_counted(test, &boots, tried, ones(byte ^ REAM_TAG_BOOT) <= 1);
		boots = *scene;
		test->trying = "all status bytes of one page";
		boots.spares[block][page][5] = (uint8_t)byte;
		expect_counted(test, &boots, tried, ones(byte) >= 7);
		boots = *scene;
		test->trying = "all magics of one page";
		spare_set_magic(test, boots.spares[block][page], (uint8_t)byte);
		expect_counted(test, &boots, tried, byte == 0x56);
	}
}

/* Two flipped bits of the path word give another path, unless one of them is the unused bit 5; two of the other word
 * may give another magic. */
static void try_word_bits(struct test *test, const struct boots *scene, enum tried tried, enum lent_page page)
{
	static const unsigned at[2][4] = { { 3, 2, 1, 0 }, { 12, 11, 7, 6 } };
	const unsigned block = tried_block[tried];

	test->trying = "two flipped bits of a protected word of one page";
	for (unsigned pair = 0; pair < 32 * 32; pair++) {
		const unsigned first = pair / 32, second = pair % 32;

		for (unsigned word = 0; word < 2 && first < second; word++) {
			struct boots boots = *scene;

			if (left_out(test))
				continue;
			boots.spares[block][page][at[word][first / 8]] ^= (uint8_t)(1 << first % 8);
			boots.spares[block][page][at[word][second / 8]] ^= (uint8_t)(1 << second % 8);
			if (word == 0)
				expect_counted(test, &boots, tried, first == 5 || second == 5);
			else
				boots_call(test, &boots);
		}
	}
}

/* All tags with all tags, and paths that differ in one bit or in the generation. */
static void try_agreement(struct test *test, const struct boots *scene, enum tried tried, enum lent_page page)
{
	const unsigned block = tried_block[tried];
	const uint32_t path = tried_path[tried];
	struct boots boots;

	test->trying = "all tags of both pages";
	for (unsigned i = 0; i < TAGS * TAGS; i++) {
		const uint8_t tag[LENT_PAGES] = { tags[i / TAGS], tags[i % TAGS] };

		boots = *scene;
		boots_write_page(test, &boots, block, FIRST, tag[FIRST], path);
		boots_write_page(test, &boots, block, LAST, tag[LAST], path);
		expect_counted(test, &boots, tried, tag[FIRST] == REAM_TAG_BOOT && tag[LAST] == REAM_TAG_BOOT);
	}
	test->trying = "paths of both pages that differ";
	for (unsigned bit = 0; bit < 26; bit++) {
		boots = *scene;
		boots_write_page(test, &boots, block, page, REAM_TAG_BOOT, path ^ (uint32_t)1 << bit);
		expect_counted(test, &boots, tried, false);
	}
	boots_write_page(test, &boots, block, page, REAM_TAG_BOOT, path ^ 3);
	expect_counted(test, &boots, tried, false);
	boots_write_page(test, &boots, block, page, REAM_TAG_BOOT, path);
	expect_counted(test, &boots, tried, true);
}

static void try_counting(struct test *test, struct boots *boots)
{
	for (unsigned i = 0; i < TRIED * LENT_PAGES; i++) {
		const enum tried tried = (enum tried)(i / LENT_PAGES);
		const enum lent_page page = (enum lent_page)(i % LENT_PAGES);

		test->trying = "the blocks that are tried";
		begin_counting(test, boots);
		expect_boots(test, boots);
		try_spare_bytes(test, boots, tried, page);
		try_word_bits(test, boots, tried, page);
		try_agreement(test, boots, tried, page);
	}
}

/* ---- as many as there can be */

static void try_full(struct test *test, struct boots *boots)
{
	static const unsigned numbers[] = { 1, 2, 3, 255, 256, 257, 511, 512, 513, 1023, 1024 };

	for (unsigned i = 0; i < ORDERS * sizeof(numbers) / sizeof(numbers[0]); i++) {
		const unsigned number = numbers[i / ORDERS];

		if (left_out(test))
			continue;
		test->trying = "every block a boot block";
		boots_begin(test, boots, number, (enum order)(i % ORDERS));
		while (boots->used < number)
			boots_one(test, boots, (unsigned)draw_below(&test->state, 4));
		expect_boots(test, boots);

		test->trying = "every block but one a boot block, and a number too large";
		boots_write(test, boots, boots->place[number - 1], REAM_TAG_BOOT, 4 * number);
		expect_no_set(test, boots, number - 1);

		test->trying = "every two blocks a pair";
		boots_begin(test, boots, number, (enum order)(i % ORDERS));
		while (boots->used + 1 < number)
			boots_pair(test, boots, (unsigned)draw_below(&test->state, 4));
		expect_boots(test, boots);
	}
}

/* One number that is wrong among as many as there can be. */
static void try_full_wrong(struct test *test, struct boots *boots)
{
	static const unsigned at[] = { 0, 1, 2, 255, 256, 511, 512, 767, 1000, 1018 };

	test->trying = "one wrong boot number among a thousand";
	for (unsigned i = 0; i < WRONGS * sizeof(at) / sizeof(at[0]); i++) {
		if (left_out(test))
			continue;
		boots_begin(test, boots, MOST_BOOTS, (enum order)(i % ORDERS));
		while (boots->used < MOST_BOOTS) {
			if (boots->next == at[i / WRONGS])
				boots_wrong(test, boots, (enum wrong)(i % WRONGS));
			else
				boots_one(test, boots, (unsigned)draw_below(&test->state, 4));
		}
		expect_boots(test, boots);
	}
}

/* ---- drawn mixtures */

/* Lays out boot numbers in drawn ways until few blocks are left; one in so many is wrong, and the highest is not. */
static void lay_drawn(struct test *test, struct boots *boots, uint64_t one_in)
{
	while (boots->used + 5 < boots->number) {
		const uint64_t choice = draw_below(&test->state, 8);

		if (draw_below(&test->state, one_in) == 0)
			boots_wrong(test, boots, (enum wrong)draw_below(&test->state, WRONGS));
		else if (choice < 3)
			boots_pass(test, boots, (enum passed)draw_below(&test->state, PASSED));
		else if (choice < 5)
			boots_pair(test, boots, (unsigned)draw_below(&test->state, 4));
		else
			boots_one(test, boots, (unsigned)draw_below(&test->state, 4));
	}
	if (boots->used < boots->number)
		boots_one(test, boots, (unsigned)draw_below(&test->state, 4));
}

/* Draws anew what must not count of a spare that was written: codes, unused bits, and one bit of the status. */
static void stir(struct test *test, struct boots *boots)
{
	for (unsigned i = 0; i < boots->number * LENT_PAGES; i++) {
		uint8_t *spare = boots->spares[i / LENT_PAGES][i % LENT_PAGES];

		draw_bytes(&test->state, spare + 8, 3);
		draw_bytes(&test->state, spare + 13, 3);
		spare[3] ^= 0x20;
		spare[12] ^= 0x20;
		if (ones(spare[5]) >= 7)
			spare[5] = (uint8_t)(0xFF ^ 1 << draw_below(&test->state, 8));
	}
}

static void try_drawn_sets(struct test *test, struct boots *boots)
{
	test->trying = "boot numbers laid out in drawn ways";
	for (unsigned i = 0; i < 9000; i++) {
		const unsigned number = (unsigned)draw_below(&test->state, i % 100 == 0 ? MOST_BOOTS + 1 : 61);
		const enum order order = (enum order)draw_below(&test->state, ORDERS);

		if (left_out(test))
			continue;
		boots_begin(test, boots, number, order);
		boots->worn = draw_below(&test->state, 2) == 0;
		lay_drawn(test, boots, i % 3 == 0 ? boots->number + 1 : UINT64_MAX);
		expect_boots(test, boots);
		stir(test, boots);
		expect_boots(test, boots);
	}
}

/* Flips a drawn bit of the spares. */
static void flip_drawn(struct test *test, struct boots *boots)
{
	const unsigned block = (unsigned)draw_below(&test->state, boots->number);
	const unsigned bit = (unsigned)draw_below(&test->state, 8 * LENT_PAGES * SPARE_BYTES);

	boots->spares[block][bit / 8 / SPARE_BYTES][bit / 8 % SPARE_BYTES] ^= (uint8_t)(1 << bit % 8);
}

/* Nothing is claimed of these but that library and reference agree: few numbers, so that many blocks have the same,
 * and spares with drawn bits flipped. */
static void try_drawn_blocks(struct test *test, struct boots *boots)
{
	test->trying = "drawn blocks";
	for (unsigned i = 0; i < 20000; i++) {
		const unsigned number = (unsigned)draw_below(&test->state, 16);
		const uint64_t numbers = 1 + draw_below(&test->state, number + 1);

		if (left_out(test))
			continue;
		boots_begin(test, boots, number, RISING);
		for (unsigned block = 0; block < number; block++) {
			const uint64_t path = draw_below(&test->state, 4 * numbers);

			boots_lay(test, boots, (uint32_t)(path / 4), (unsigned)(path % 4));
		}
		for (uint64_t flips = draw_below(&test->state, 2 * number + 1); flips > 0; flips--)
			flip_drawn(test, boots);
		boots_call(test, boots);
	}

	test->trying = "senseless spares";
	for (unsigned i = 0; i < 200; i++) {
		boots_begin(test, boots, (unsigned)draw_below(&test->state, 64), RISING);
		draw_bytes(&test->state, boots->spares[0][0], sizeof(boots->spares[0]) * boots->number);
		boots_call(test, boots);
		expect_answer(test, REAM_OK, "there is no boot block in drawn bytes");
	}
}

void test_boot_map(struct test *test)
{
	struct boots boots;

	try_bytes(test, &boots);
	try_no_boot_block(test, &boots);
	try_pairs(test, &boots);
	try_several(test, &boots);
	try_sets(test, &boots);
	try_far(test, &boots);
	try_smallest(test, &boots);
	try_counting(test, &boots);
	try_full(test, &boots);
	try_full_wrong(test, &boots);
	try_drawn_sets(test, &boots);
	try_drawn_blocks(test, &boots);
}
