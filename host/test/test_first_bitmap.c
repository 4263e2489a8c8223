/* First bitmaps: ream_first_bitmap. */
#include "tests.h"

#include <string.h>

#include "draw.h"
#include "reamsickle.h"
#include "scenes.h"

static bool is_marked(const struct scene *scene, uint64_t block)
{
	return scene->marks[2 * block] == 0 || scene->marks[2 * block + 1] == 0;
}

static void expect_first_bitmap(struct test *test, struct scene *scene, struct chip chip)
{
	const uint64_t n = chip.n;
	uint64_t right = 0;

	scene->region.n = n;
	scene->region.size = chip.size;
	scene_call(test, FIRST_BITMAP, scene);
	expect_answer(test, REAM_OK, "a first bitmap is given");
	for (uint64_t block = 0; block < n; block++)
		right += ream_entry_get(call_left(test, 1), block) == (is_marked(scene, block) ? 0u : 3u);
	expect(test, right == n, "factory where either mark is 0, good elsewhere");
}

/* A byte that is no mark, drawn. */
static uint8_t draw_unmarked(struct test *test)
{
	return (uint8_t)(1 + draw_below(&test->state, 255));
}

static void try_equal_marks(struct test *test, struct scene *scene, struct chip chip)
{
	test->trying = "marks that are all the same";
	for (unsigned byte = 0; byte < 256; byte += chip.n <= 16 ? 1 : 51) {
		if (left_out(test))
			continue;
		memset(scene->marks, (int)byte, ream_marks_size(chip.n));
		expect_first_bitmap(test, scene, chip);
	}
}

/* The marks of a place alone: of the first and last blocks, and of drawn ones. */
static uint64_t pick_mark(struct test *test, unsigned i, uint64_t marks)
{
	return i < 16 ? i : i < 32 ? marks - 1 - (i - 16) : draw_below(&test->state, marks);
}

static void try_single_marks(struct test *test, struct scene *scene, struct chip chip)
{
	const size_t len = ream_marks_size(chip.n);

	for (unsigned i = 0; i < 64; i++) {
		const uint64_t place = pick_mark(test, i, len);

		if (left_out(test))
			continue;
		test->trying = "a single mark that is 0";
		memset(scene->marks, 0xFF, len);
		scene->marks[place] = 0;
		expect_first_bitmap(test, scene, chip);

		test->trying = "a single mark that is not 0";
		memset(scene->marks, 0, len);
		scene->marks[place] = (uint8_t)(1 << i % 8);
		expect_first_bitmap(test, scene, chip);

		test->trying = "a single block without a mark";
		scene->marks[place ^ 1] = draw_unmarked(test);
		expect_first_bitmap(test, scene, chip);
	}
}

static void try_drawn_marks(struct test *test, struct scene *scene, struct chip chip)
{
	const size_t len = ream_marks_size(chip.n);

	test->trying = "drawn marks";
	for (unsigned i = 0; i < 20; i++) {
		draw_bytes(&test->state, scene->marks, len);
		for (size_t place = 0; place < len; place++)
			if (i % 2 == 0 && draw_below(&test->state, 2) == 0)
				scene->marks[place] = 0;
		expect_first_bitmap(test, scene, chip);
	}
}

/* Sixteen marks, of eight blocks: every set of them is 0 once, and the others are any bytes. */
static void try_every_set(struct test *test, struct scene *scene)
{
	const struct chip chip = { 8, 4 };

	test->trying = "every set of marks that are 0";
	for (unsigned set = 0; set < 1u << 16; set++) {
		if (left_out(test))
			continue;
		for (unsigned place = 0; place < 16; place++)
			scene->marks[place] = set >> place & 1 ? 0 : draw_unmarked(test);
		expect_first_bitmap(test, scene, chip);
	}
}

/* The marks of first pages alone, and of one block too few. */
static void try_fewer_marks(struct test *test, struct scene *scene, struct chip chip)
{
	const size_t lens[] = { (size_t)chip.n, ream_marks_size(chip.n) - 2 };

	test->trying = "fewer marks";
	memset(scene->marks, 0xFF, ream_marks_size(chip.n));
	scene->region.n = chip.n;
	scene->region.size = chip.size;
	for (unsigned i = 0; i < 2; i++) {
		scene_set_up(test, FIRST_BITMAP, scene);
		test->call.len[0] = lens[i];
		call_compare(test);
		expect_answer(test, REAM_LENGTH, "less than two marks for each block is refused");
	}
}

void test_first_bitmap(struct test *test, struct scene *scene)
{
	for (unsigned i = 0; i < CHIPS; i++) {
		try_equal_marks(test, scene, chips[i]);
		try_single_marks(test, scene, chips[i]);
		try_drawn_marks(test, scene, chips[i]);
		try_fewer_marks(test, scene, chips[i]);
	}
	try_every_set(test, scene);
}
