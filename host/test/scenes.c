/* Regions made to order. */
#include "scenes.h"

#include <string.h>

#include "draw.h"
#include "reamsickle.h"

bool is_chip(uint64_t n, uint64_t size)
{
	return n % 4 == 0 && n >= 8 && n <= 32768 && size >= 4 && size <= 7 && n >= 2 * size;
}

const struct chip chips[CHIPS] = {
	{ 8, 4 }, { 12, 4 }, { 12, 5 }, { 12, 6 }, { 16, 4 }, { 16, 7 }, { 1024, 4 }, { 1024, 5 }, { 8188, 6 },
	{ 8192, 4 }, { 8192, 7 }, { 8196, 4 }, { 8196, 5 }, { 16384, 4 }, { 16384, 6 }, { 16388, 7 }, { 20000, 4 },
	{ 24576, 5 }, { 24580, 4 }, { 24580, 6 }, { 32760, 4 }, { 32764, 5 }, { 32768, 4 }, { 32768, 7 },
};

const struct chip shapes[SHAPES] = {
	{ 8, 4 }, { 12, 5 }, { 12, 6 }, { 16, 7 },
	{ 8196, 4 }, { 8196, 5 }, { 8196, 6 }, { 8196, 7 },
	{ 24576, 4 }, { 24576, 5 }, { 24576, 6 }, { 24576, 7 },
	{ 32764, 4 }, { 32764, 5 }, { 32764, 6 }, { 32764, 7 },
};

const uint64_t no_numbers[NO_NUMBERS] = {
	0, 1, 2, 3, 4, 5, 6, 7, 9, 10, 11, 13, 14, 15, 8190, 8191, 8193, 8194, 32765, 32766, 32767, 32769, 32770,
	32771, 32772, 32776, 65536, 65544, 131072, UINT32_MAX, ((uint64_t)1 << 32) + 8, ((uint64_t)1 << 32) + 32768,
	((uint64_t)1 << 34) + 8, ((uint64_t)1 << 48) + 8, ((uint64_t)1 << 62) + 8, ((uint64_t)1 << 63) + 8,
	UINT64_MAX - 7, UINT64_MAX - 3, UINT64_MAX,
};

const uint64_t no_sizes[NO_SIZES] = {
	0, 1, 2, 3, 8, 9, 12, 15, 16, 32, 256 + 4, 65536 + 4, UINT32_MAX, ((uint64_t)1 << 32) + 4,
	((uint64_t)1 << 32) + 7, ((uint64_t)1 << 48) + 4, ((uint64_t)1 << 63) + 4, ((uint64_t)1 << 63) + 7,
	UINT64_MAX - 3, UINT64_MAX,
};

const enum entry_index region_entries[REGION_ENTRIES] = {
	TABLE_READ, UPDATE_PLAN, RECOVERY_PLAN, UPDATE_PAGE, RECOVERY_PAGE,
};

/* ---- casts */

struct chip drawn_shape(struct test *test, unsigned pages)
{
	return shapes[(pages - 1) * REGION_SIZES + draw_below(&test->state, REGION_SIZES)];
}

struct chip drawn_chip(struct test *test, uint64_t n)
{
	return (struct chip){ n, drawn_size(&test->state, n) };
}

struct cast cast_settled(struct chip chip, unsigned primary, unsigned mirror, uint8_t version)
{
	struct cast cast = { .chip = chip, .version = { version, version }, .equal = true, .way = UNREADABLE };

	for (unsigned block = 0; block < chip.size; block++)
		cast.role[block] = BLANK;
	cast.role[primary] = GOOD_PRIMARY;
	cast.role[mirror] = GOOD_MIRROR;
	return cast;
}

unsigned placements(struct chip chip)
{
	return chip.size * (chip.size - 1);
}

struct cast cast_placed(struct chip chip, unsigned i, uint8_t version)
{
	const unsigned pair = i % placements(chip);
	const unsigned primary = pair / (chip.size - 1), mirror = pair % (chip.size - 1);

	return cast_settled(chip, primary, mirror < primary ? mirror : mirror + 1, version);
}

struct cast cast_troubled(struct chip chip, unsigned trouble)
{
	const unsigned last = chip.size - 1;
	struct cast cast = cast_settled(chip, last, 1, 40);

	switch (trouble) {
	case 1:		/* 8: two of a kind */
		cast.role[0] = GOOD_MIRROR;
		break;
	case 2:		/* 8: two of a kind and none of the other */
		cast.role[1] = GOOD_PRIMARY;
		break;
	case 3:		/* 8, although one of the two stands opposite to the other kind */
		cast.role[0] = GOOD_PRIMARY;
		cast.version[PRIMARY] += 128;
		break;
	case 4:		/* 7 */
		cast.role[last] = cast.role[1] = MARKED;
		break;
	case 5:		/* 9 */
		cast.version[PRIMARY] += 128;
		cast.equal = false;
		break;
	case 6:		/* 10 in reading, a merge in recovery */
		cast.equal = false;
		break;
	case 7:		/* 10 in reading, 11 in recovery */
		for (unsigned block = 0; block < last; block++)
			cast.role[block] = MARKED;
		break;
	case 8:		/* 10 in reading, and in recovery a copy made anew: of the newer primary, .. */
		cast.version[PRIMARY] += 127;
		cast.equal = false;
		break;
	case 9:		/* .. the newer mirror, .. */
		cast.version[MIRROR] += 127;
		cast.equal = false;
		break;
	case 10:	/* .. the primary alone .. */
		cast.role[1] = BLANK;
		break;
	case 11:	/* .. or the mirror alone */
		cast.role[last] = MARKED;
		break;
	}
	return cast;
}

enum role drawn_role(struct test *test, enum role from)
{
	return (enum role)(from + draw_below(&test->state, ROLES - from));
}

void cast_draw_spoilt(struct test *test, struct cast *cast)
{
	const unsigned pages = ream_table_pages(cast->chip.n);

	cast->page = (unsigned)draw_below(&test->state, pages);
	cast->way = drawn_way(&test->state, pages);
}

/* ---- building */

/* Spoils the page of a copy of a kind. Where its block's first page is unreadable or still signed, a mark
 * there does not count, so one is set by chance. */
static void spoil(struct test *test, struct region *region, unsigned block, enum kind kind,
		  const struct cast *cast)
{
	const bool first_unsigned = cast->page == 0 && (cast->way == BLANKED || cast->way == WRONG_SIGNATURE);

	drawn_spoil(&test->state, region, block, cast->page, kind, cast->way);
	if (!first_unsigned && draw_below(&test->state, 2) == 0)
		region_oob(region, block, 0)[0] = 0;
}

/* A block with a mark and no signature on its first page: blank otherwise, or with drawn bytes there, or
 * with a copy whose first page alone has lost its signature. */
static void mark(struct test *test, struct scene *scene, unsigned block, const struct cast *cast)
{
	struct region *region = &scene->region;
	uint8_t *oob = region_oob(region, block, 0);
	uint64_t bit;

	switch (draw_below(&test->state, 3)) {
	case 0:
		break;
	case 1:
		draw_bytes(&test->state, oob, PAGE_OOB);
		oob[SIGNATURE] = 0;
		break;
	default:
		region_copy(region, block, PRIMARY, cast->version[PRIMARY], scene->table[PRIMARY]);
		bit = draw_below(&test->state, 8);
		oob[SIGNATURE + draw_below(&test->state, 4)] ^= (uint8_t)(1 << bit);
		break;
	}
	oob[0] = 0;
}

/* A block with 64 zeros in the OOB of its first page, over a copy or over a blank page, read well or not. */
static void zero(struct test *test, struct scene *scene, unsigned block, const struct cast *cast)
{
	struct region *region = &scene->region;

	if (draw_below(&test->state, 2) == 0)
		region_copy(region, block, MIRROR, cast->version[MIRROR], scene->table[MIRROR]);
	memset(region_oob(region, block, 0), 0, PAGE_OOB);
	*region_status(region, block, 0) = (uint8_t)draw_below(&test->state, 2);
}

/* A block with a mark on an unreadable first page, or with zeros there that are fewer than 64. */
static void mark_unreadable(struct test *test, struct scene *scene, unsigned block, const struct cast *cast)
{
	uint8_t *oob = region_oob(&scene->region, block, 0);

	mark(test, scene, block, cast);
	if (draw_below(&test->state, 2) == 0) {
		const uint8_t byte = (uint8_t)(1 + draw_below(&test->state, 255));

		memset(oob, 0, PAGE_OOB);
		oob[draw_below(&test->state, PAGE_OOB)] = byte;
	}
	*region_status(&scene->region, block, 0) = 1;
}

static void play(struct test *test, struct scene *scene, unsigned block, const struct cast *cast)
{
	const enum role role = cast->role[block];
	const enum kind kind = role == GOOD_MIRROR || role == SPOILT_MIRROR ? MIRROR : PRIMARY;
	struct region *region = &scene->region;

	switch (role) {
	case GOOD_PRIMARY:
	case GOOD_MIRROR:
		region_copy(region, block, kind, cast->version[kind], scene->table[kind]);
		break;
	case MARKED_PRIMARY:
		region_copy(region, block, kind, cast->version[kind], scene->table[kind]);
		region_oob(region, block, 0)[0] = 0;
		break;
	case BLANK:
		break;
	case MARKED:
		if (draw_below(&test->state, 2) == 0)
			mark(test, scene, block, cast);
		else
			zero(test, scene, block, cast);
		break;
	case MARKED_UNREADABLE:
		mark_unreadable(test, scene, block, cast);
		break;
	case MARKED_LATER:
		for (unsigned page = 1; page < region->pages; page++)
			memset(region_oob(region, block, page), 0, draw_below(&test->state, 2) == 0 ? 1 : PAGE_OOB);
		break;
	case SPOILT_PRIMARY:
	case SPOILT_MIRROR:
		region_copy(region, block, kind, cast->version[kind], scene->table[kind]);
		spoil(test, region, block, kind, cast);
		break;
	case ROLES:
		break;
	}
}

void scene_rebuild(struct test *test, struct scene *scene, const struct cast *cast)
{
	scene->failed_len = 0;
	scene->step = 1;
	scene->kind = REAM_PRIMARY;
	scene->version = cast->version[PRIMARY];
	scene->place = 0;
	region_begin(&scene->region, cast->chip.n, cast->chip.size);
	for (unsigned block = 0; block < cast->chip.size; block++)
		play(test, scene, block, cast);
}

void scene_build(struct test *test, struct scene *scene, const struct cast *cast)
{
	const uint64_t n = cast->chip.n;
	const size_t len = (size_t)n / 4;

	drawn_table(&test->state, scene->table[PRIMARY], n);
	memcpy(scene->table[MIRROR], scene->table[PRIMARY], len);
	if (!cast->equal) {
		const uint64_t bit = draw_below(&test->state, 8);

		scene->table[MIRROR][draw_below(&test->state, len)] ^= (uint8_t)(1 << bit);
	}
	drawn_table(&test->state, scene->wanted, n);
	memset(scene->marks, 0xFF, ream_marks_size(n));
	scene->marks[draw_below(&test->state, 2 * n)] = 0;
	scene_rebuild(test, scene, cast);
}

void scene_build_changing(struct test *test, struct scene *scene, const struct cast *cast)
{
	scene_build(test, scene, cast);
	scene->table[PRIMARY][0] = scene->table[MIRROR][0] = 0xFF;
	scene->wanted[0] = 0x27;
	if (!cast->equal)
		scene->table[MIRROR][1] = (uint8_t)~scene->table[PRIMARY][1];
	scene_rebuild(test, scene, cast);
}

void scene_stir(struct test *test, struct scene *scene)
{
	drawn_stir(&test->state, &scene->region);
}

/* ---- calls */

bool gives_page(enum entry_index index)
{
	return has_number(index, "step");
}

void scene_fail(struct scene *scene, const uint8_t *failed, size_t len)
{
	memcpy(scene->failed, failed, len);
	scene->failed_len = len;
}

void scene_fail_too(struct scene *scene, uint8_t number)
{
	scene->failed[scene->failed_len++] = number;
}

void scene_set_up(struct test *test, enum entry_index index, const void *inputs)
{
	const struct scene *scene = inputs;
	const struct region *region = &scene->region;

	call_begin_large(test, index, region->n, region->size);
	call_lend_named(test, "marks", scene->marks, ream_marks_size(region->n));
	call_lend_named(test, "image", region->image, region_image_len(region));
	call_lend_named(test, "status", region->status, region_status_len(region));
	call_lend_named(test, "wanted", scene->wanted, (size_t)region->n / 4);
	call_lend_named(test, "bitmap", scene->wanted, (size_t)region->n / 4);
	call_lend_named(test, "failed", scene->failed, scene->failed_len);
	call_set_named(test, "step", scene->step);
	call_set_named(test, "kind", scene->kind);
	call_set_named(test, "version", scene->version);
	call_set_named(test, "place", scene->place);
}

uint64_t scene_call(struct test *test, enum entry_index index, const struct scene *scene)
{
	scene_set_up(test, index, scene);
	return call_compare(test);
}
