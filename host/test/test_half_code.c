/* Half-page codes: ream_half_code. */
#include "tests.h"

#include <string.h>

#include "draw.h"
#include "reamsickle.h"
#include "small_pages.h"

/* ---- document 01's examples by number */

static void expect_code(struct test *test, const uint8_t *half, uint8_t first, uint8_t second, uint8_t third)
{
	const uint8_t code[3] = { first, second, third };

	half_code(test, half);
	expect_answer(test, REAM_OK, "a code that must be given");
	expect(test, memcmp(call_left(test, 1), code, 3) == 0, "the code of document 01's example");
}

static void try_code_examples(struct test *test)
{
	uint8_t half[256];

	test->trying = "document 01's half-page codes";
	memset(half, 0xFF, 256);
	expect_code(test, half, 0xFF, 0xFF, 0xFF);
	half[0] = 0xFE;
	expect_code(test, half, 0xAA, 0xAA, 0xAB);
	half[0] = 0xFF;
	half[1] = 0xFE;
	expect_code(test, half, 0xA9, 0xAA, 0xAB);
	memset(half, 0, 256);
	expect_code(test, half, 0xFF, 0xFF, 0xFF);
	half[255] = 0x80;
	expect_code(test, half, 0x55, 0x55, 0x57);
}

/* ---- other halves */

static void try_half_codes(struct test *test)
{
	uint8_t half[256];

	test->trying = "halves with a single bit set, or a single bit not set";
	for (unsigned i = 0; i < HALF_DATA_BITS; i++) {
		memset(half, 0, 256);
		half[i / 8] = (uint8_t)(1 << i % 8);
		half_code(test, half);
	}
	for (unsigned i = 0; i < HALF_DATA_BITS; i += 5) {
		memset(half, 0xFF, 256);
		half[i / 8] ^= (uint8_t)(1 << i % 8);
		half_code(test, half);
	}

	test->trying = "drawn halves";
	for (unsigned i = 0; i < 1000; i++) {
		draw_bytes(&test->state, half, 256);
		half_code(test, half);
	}
}

void test_half_code(struct test *test)
{
	try_code_examples(test);
	try_half_codes(test);
}
