/*
 * Pages of any table: ream_table_page. Their bytes, the arguments that are refused, and that plans write the same pages.
 * test_first_pair.c has what they are for.
 */
#include "tests.h"

#include <string.h>

#include "draw.h"
#include "outcomes.h"
#include "reamsickle.h"
#include "region.h"
#include "scenes.h"

/* Numbers of blocks about the ends of their range, and about those at which P changes. */
static const uint64_t numbers[] = {
	8, 12, 16, 1024, 8188, 8192, 8196, 16380, 16384, 16388, 24572, 24576, 24580, 32760, 32764, 32768,
};

enum { NUMBERS = sizeof(numbers) / sizeof(numbers[0]) };

/* ---- a page's bytes */

/* Kinds are numbered from 1 on in calls. */
static uint64_t kind_number(enum kind kind)
{
	return kind == PRIMARY ? REAM_PRIMARY : REAM_MIRROR;
}

/* The byte at a place of a page, by document 01. */
static uint8_t byte_of(uint64_t n, const uint8_t *bitmap, enum kind kind, uint8_t version, unsigned page, unsigned at)
{
	static const uint8_t signatures[KINDS][4] = { { 0x42, 0x62, 0x74, 0x30 }, { 0x31, 0x74, 0x62, 0x42 } };
	const unsigned of_bitmap = PAGE_DATA * page + at;

	if (at < PAGE_DATA)
		return of_bitmap < n / 4 ? bitmap[of_bitmap] : 0xFF;
	if (at >= PAGE_DATA + 14 && at < PAGE_DATA + 18)
		return signatures[kind][at - PAGE_DATA - 14];
	return at == PAGE_DATA + 18 ? version : 0xFF;
}

/* Asks for a page of a copy of the scene's wanted bitmap, with any numbers. */
static uint64_t ask(struct test *test, struct scene *scene, uint64_t kind, uint64_t version, uint64_t place)
{
	scene->kind = kind;
	scene->version = version;
	scene->place = place;
	return scene_call(test, TABLE_PAGE, scene);
}

/* The last call gave this page of a copy of the scene's wanted bitmap. */
static void expect_given(struct test *test, const struct scene *scene, enum kind kind, uint8_t version, unsigned page)
{
	const uint8_t *given = call_left(test, 1);
	unsigned right = 0;

	expect_answer(test, REAM_OK, "a page is given");
	for (unsigned at = 0; at < PAGE_BYTES; at++)
		right += given[at] == byte_of(scene->region.n, scene->wanted, kind, version, page, at);
	expect(test, right == PAGE_BYTES, "the page's bytes");
}

/* Every page of both copies of the scene's wanted bitmap. */
static void expect_copies(struct test *test, struct scene *scene, uint8_t version)
{
	for (unsigned kind = 0; kind < KINDS; kind++) {
		for (unsigned page = 0; page < scene->region.pages; page++) {
			ask(test, scene, kind_number((enum kind)kind), version, page);
			expect_given(test, scene, (enum kind)kind, version, page);
		}
	}
}

/* Bitmaps that are all the same byte, drawn ones, and such with a single byte that is not FF, at the ends of the
 * bitmap and of the pages; on every chip with every size of its region. */
static void try_bitmaps(struct test *test, struct scene *scene)
{
	for (unsigned i = 0; i < NUMBERS; i++) {
		const size_t len = (size_t)numbers[i] / 4;
		const size_t ends[] = { 0, 1, len / 2, len - 1, PAGE_DATA - 1, PAGE_DATA, len / PAGE_DATA * PAGE_DATA };

		for (unsigned size = FEWEST_REGION_BLOCKS; size <= region_largest(numbers[i]); size++) {
			region_begin(&scene->region, numbers[i], size);
			test->trying = "pages of bitmaps that are all the same byte";
			for (unsigned byte = 0; byte < 256; byte += 51) {
				memset(scene->wanted, (int)byte, len);
				expect_copies(test, scene, (uint8_t)draw(&test->state));
			}
			test->trying = "pages of bitmaps with a single byte that is not FF";
			for (unsigned k = 0; k < sizeof(ends) / sizeof(ends[0]); k++) {
				memset(scene->wanted, 0xFF, len);
				scene->wanted[ends[k] % len] = (uint8_t)draw_below(&test->state, 255);
				expect_copies(test, scene, (uint8_t)draw(&test->state));
			}
			test->trying = "pages of drawn bitmaps";
			for (unsigned k = 0; k < 8; k++) {
				draw_bytes(&test->state, scene->wanted, len);
				expect_copies(test, scene, (uint8_t)draw(&test->state));
			}
		}
	}
}

static void try_versions(struct test *test, struct scene *scene)
{
	test->trying = "pages of every version";
	for (unsigned shape = 0; shape < SHAPES; shape++) {
		region_begin(&scene->region, shapes[shape].n, shapes[shape].size);
		for (unsigned version = 0; version < 256; version++) {
			if (left_out(test))
				continue;
			drawn_table(&test->state, scene->wanted, shapes[shape].n);
			expect_copies(test, scene, (uint8_t)version);
		}
	}
}

/* ---- what is refused */

/* Numbers of kinds, versions and places. Those that are taken come first, of places as many as there are pages. The
 * others are close to them, or would be one of them if bits were cut: of the number itself, or of a place times
 * 2,048. */
static const uint64_t kinds[] = {
	1, 2, 0, 3, 4, 5, 255, 256, 256 + 1, 256 + 2, 65536 + 1, UINT32_MAX, ((uint64_t)1 << 32) + 1,
	((uint64_t)1 << 32) + 2, ((uint64_t)1 << 63) + 1, ((uint64_t)1 << 63) + 2, UINT64_MAX - 1, UINT64_MAX,
};

static const uint64_t versions[] = {
	0, 5, 127, 128, 255, 256, 256 + 5, 511, 512, 65536, UINT32_MAX, (uint64_t)1 << 32, ((uint64_t)1 << 32) + 5,
	(uint64_t)1 << 63, UINT64_MAX - 255, UINT64_MAX,
};

static const uint64_t places[] = {
	0, 1, 2, 3, 4, 5, 7, 8, 255, 256, 256 + 3, 65536, (uint64_t)1 << 21, UINT32_MAX, (uint64_t)1 << 32,
	((uint64_t)1 << 32) + 1, (uint64_t)1 << 51, (uint64_t)1 << 53, ((uint64_t)1 << 53) + 1, (uint64_t)1 << 62,
	(uint64_t)1 << 63, UINT64_MAX - 1, UINT64_MAX,
};

enum {
	TRIED_KINDS = sizeof(kinds) / sizeof(kinds[0]),
	TRIED_VERSIONS = sizeof(versions) / sizeof(versions[0]),
	TRIED_PLACES = sizeof(places) / sizeof(places[0]),
	TAKEN_KINDS = 2,
	TAKEN_VERSIONS = 5,
};

static bool taken(uint64_t kind, uint64_t version, uint64_t place, unsigned pages)
{
	return (kind == 1 || kind == 2) && version < 256 && place < pages;
}

static void expect_taken_or_refused(struct test *test, struct scene *scene, uint64_t kind, uint64_t version,
				    uint64_t place)
{
	ask(test, scene, kind, version, place);
	if (taken(kind, version, place, scene->region.pages))
		expect_given(test, scene, kind == 1 ? PRIMARY : MIRROR, (uint8_t)version, (unsigned)place);
	else
		expect_answer(test, REAM_RANGE, "a kind, a version or a page that there is not is refused");
}

/* Each with each. */
static void try_numbers(struct test *test, struct scene *scene)
{
	test->trying = "kinds, versions and numbers of pages";
	for (unsigned shape = 0; shape < SHAPES; shape++) {
		region_begin(&scene->region, shapes[shape].n, shapes[shape].size);
		draw_bytes(&test->state, scene->wanted, (size_t)shapes[shape].n / 4);
		for (unsigned i = 0; i < TRIED_KINDS * TRIED_VERSIONS * TRIED_PLACES; i++) {
			const uint64_t version = versions[i / TRIED_KINDS % TRIED_VERSIONS];

			if (!left_out(test))
				expect_taken_or_refused(test, scene, kinds[i % TRIED_KINDS], version,
							places[i / TRIED_KINDS / TRIED_VERSIONS]);
		}
	}
}

/* The length of buffer i told as `len`. */
static void expect_length_judged(struct test *test, const struct scene *scene, unsigned i, size_t len)
{
	bool named;

	scene_set_up(test, TABLE_PAGE, scene);
	named = len == test->call.len[i];
	test->call.len[i] = len;
	call_compare(test);
	expect_answer(test, named ? REAM_OK : REAM_LENGTH, "refusal 1 comes exactly with a wrong length");
}

/* Every length of each buffer up to some bytes more than there can be. */
static void try_every_length(struct test *test, struct scene *scene)
{
	static const struct chip tried[] = { { 8, 4 }, { 8196, 5 }, { 32768, 7 } };

	test->trying = "every length";
	for (unsigned i = 0; i < sizeof(tried) / sizeof(tried[0]); i++) {
		const struct cast cast = cast_settled(tried[i], 0, 1, 200);

		scene_build(test, scene, &cast);
		for (size_t len = 0; len <= MOST_BITMAP + 64; len++)
			if (!left_out(test))
				expect_length_judged(test, scene, 0, len);
		for (size_t len = 0; len <= 2 * PAGE_BYTES; len++)
			if (!left_out(test))
				expect_length_judged(test, scene, 1, len);
	}
}

/* What can be wrong with a call, each a bit. */
enum fault {
	WRONG_N = 1,
	WRONG_SIZE = 2,
	WRONG_BITMAP_LENGTH = 4,
	WRONG_PAGE_LENGTH = 8,
	WRONG_KIND = 16,
	WRONG_VERSION = 32,
	WRONG_PLACE = 64,
	SETS_OF_FAULTS = 128,
};

/* A length close to the named one, or far from it. */
static size_t wrong_length(struct test *test, size_t named)
{
	const size_t wrong[] = { 0, named - 1, named + 1, named / 2, named * 2, named + 256, SIZE_MAX };

	return wrong[draw_below(&test->state, sizeof(wrong) / sizeof(wrong[0]))];
}

/* One of the numbers that are tried, past those that are taken. */
static uint64_t wrong_number(struct test *test, const uint64_t *tried, unsigned count, unsigned taken_count)
{
	return tried[taken_count + draw_below(&test->state, count - taken_count)];
}

/* Sets up a call with these faults; what is not wrong is drawn. */
static void set_up_faults(struct test *test, struct scene *scene, unsigned faults)
{
	const unsigned pages = scene->region.pages;
	struct call *call = &test->call;

	scene->kind = 1 + draw_below(&test->state, KINDS);
	scene->version = draw_below(&test->state, 256);
	scene->place = draw_below(&test->state, pages);
	if (faults & WRONG_KIND)
		scene->kind = wrong_number(test, kinds, TRIED_KINDS, TAKEN_KINDS);
	if (faults & WRONG_VERSION)
		scene->version = wrong_number(test, versions, TRIED_VERSIONS, TAKEN_VERSIONS);
	if (faults & WRONG_PLACE)
		scene->place = wrong_number(test, places, TRIED_PLACES, pages);
	scene_set_up(test, TABLE_PAGE, scene);
	if (faults & WRONG_BITMAP_LENGTH)
		call->len[0] = wrong_length(test, call->len[0]);
	if (faults & WRONG_PAGE_LENGTH)
		call->len[1] = wrong_length(test, call->len[1]);
	if (faults & WRONG_N)
		call->number[0] = no_numbers[draw_below(&test->state, NO_NUMBERS)];
	if (faults & WRONG_SIZE)
		call->number[1] = no_sizes[draw_below(&test->state, NO_SIZES)];
}

static void expect_faults_judged(struct test *test, struct scene *scene, unsigned faults)
{
	set_up_faults(test, scene, faults);
	call_compare(test);
	if (faults & (WRONG_N | WRONG_SIZE))
		expect_answer(test, REAM_RANGE, "N and the region's size are judged first");
	else if (faults & (WRONG_BITMAP_LENGTH | WRONG_PAGE_LENGTH))
		expect_answer(test, REAM_LENGTH, "then the lengths");
	else if (faults != 0)
		expect_answer(test, REAM_RANGE, "then kind, version and number");
	else
		expect_given(test, scene, scene->kind == 1 ? PRIMARY : MIRROR, (uint8_t)scene->version,
			     (unsigned)scene->place);
}

static void try_faults(struct test *test, struct scene *scene)
{
	test->trying = "all faults with all others, of a page of any table";
	for (unsigned shape = 0; shape < SHAPES; shape++) {
		region_begin(&scene->region, shapes[shape].n, shapes[shape].size);
		for (unsigned i = 0; i < 16 * SETS_OF_FAULTS; i++) {
			if (left_out(test))
				continue;
			drawn_table(&test->state, scene->wanted, shapes[shape].n);
			expect_faults_judged(test, scene, i % SETS_OF_FAULTS);
		}
	}
}

/* ---- the pages that plans write */

/* Each page of a plan, asked for by its step, and asked for as a page of the table that the plan makes: the same bytes.
 * Gives how many there are. */
static unsigned expect_same_pages(struct test *test, struct scene *scene, enum entry_index index,
				  const struct planned *planned)
{
	const struct plan *plan = &planned->plan;
	const unsigned pages = scene->region.pages;
	uint8_t wanted[MOST_BITMAP], by_plan[PAGE_BYTES];

	memcpy(wanted, scene->wanted, sizeof(wanted));
	for (unsigned i = 0; i < plan->copies * pages; i++) {
		const unsigned copy = i / pages, page = i % pages;

		scene->step = (plan->zeroes ? 1 : 0) + copy * (pages + 1) + 1 + page;
		memcpy(scene->wanted, wanted, sizeof(wanted));
		scene_call(test, index, scene);
		expect_answer(test, REAM_OK, "the plan's page");
		memcpy(by_plan, call_left(test, entries[index].buffers - 1), PAGE_BYTES);
		memcpy(scene->wanted, scene->made, sizeof(wanted));
		ask(test, scene, kind_number(plan->kind[copy]), plan->version, page);
		expect_answer(test, REAM_OK, "the same page without a plan");
		expect(test, memcmp(call_left(test, 1), by_plan, PAGE_BYTES) == 0, "it has the bytes of the plan's");
	}
	memcpy(scene->wanted, wanted, sizeof(wanted));
	return plan->copies * pages;
}

/* The same of an update or a recovery, as it is first planned and after its first write failed. */
static unsigned expect_plans_pages(struct test *test, struct scene *scene, const struct cast *cast,
				   enum entry_index plan_index, enum entry_index page_index)
{
	static const uint8_t failed[1] = { 1 };
	struct planned planned = planned_of(scene, cast, plan_index);
	unsigned given = 0;

	scene->failed_len = 0;
	if (planned.refusal == REAM_OK)
		given += expect_same_pages(test, scene, page_index, &planned);
	planned_fail(&planned, cast, failed[0]);
	scene_fail(scene, failed, 1);
	if (planned.refusal == REAM_OK)
		given += expect_same_pages(test, scene, page_index, &planned);
	return given;
}

/* A settled pair has an update of two copies, a pair of equal versions and different tables a recovery of two, and four
 * other casts one of one copy: eight copies in all. Each is made anew after a failed step. */
static void try_pages_of_plans(struct test *test, struct scene *scene)
{
	test->trying = "the pages of plans, without a plan";
	for (unsigned shape = 0; shape < SHAPES; shape++) {
		const unsigned pages = ream_table_pages(shapes[shape].n);
		unsigned given = 0;

		for (unsigned trouble = 0; trouble < TROUBLES; trouble++) {
			const struct cast cast = cast_troubled(shapes[shape], trouble);

			scene_build_changing(test, scene, &cast);
			given += expect_plans_pages(test, scene, &cast, UPDATE_PLAN, UPDATE_PAGE);
			given += expect_plans_pages(test, scene, &cast, RECOVERY_PLAN, RECOVERY_PAGE);
		}
		expect(test, given == 2 * 8 * pages, "eight copies are compared, each twice");
	}
}

void test_table_page(struct test *test, struct scene *scene)
{
	try_bitmaps(test, scene);
	try_versions(test, scene);
	try_numbers(test, scene);
	try_every_length(test, scene);
	try_faults(test, scene);
	try_pages_of_plans(test, scene);
}
