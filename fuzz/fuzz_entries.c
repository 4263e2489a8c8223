/*
 * The fuzzed target: an input is one call of one entry. It is made by the library and by the reference and
 * compared as in the host test (calls.h): the answer, each lent byte, guard bytes, inputs unchanged, and
 * nothing changed by a refused call. Then the library is called once more, on fenced buffers (fence.h), and has
 * to do the same. A difference is printed, and ends the program.
 *
 * The input's bytes, with zeros past its end:
 *
 *	the entry		a byte, modulo their number, in the order of enum entry_index
 *	guards			a byte: which guard bytes and alignment; bit 0 which side is fenced
 *	the entry's numbers	take_number() each, in the order of the parameters
 *	lengths			a byte: below 192 all are as named, otherwise that of one buffer is not, counted
 *				modulo the buffers; a byte below 128 then adds -64 to 63, otherwise it is the
 *				next eight bytes
 *	what is lent		a spare to read, alone or with its data: lend_page(); the spares of blocks:
 *				build_blocks(); region and wanted: build_region(), with the second table as wanted,
 *				and failed steps: lend_failed(); others: take_bytes() each
 *
 * The library is not instrumented: it is native code as the prover made it. So coverage is that of the
 * reference, which takes each case of document 01 apart as the library has to, and memory that the library
 * touches is watched by guards and fences.
 */
#include "fuzz_entries.h"

#include <stdio.h>
#include <stdlib.h>
#include <string.h>

#include "calls.h"
#include "reference.h"
#include "blocks.h"
#include "build.h"
#include "fence.h"
#include "input.h"
#include "reamsickle.h"

struct fuzz {
	struct test test;
	struct build build;
	struct fence fence[MOST_BUFFERS];
};

enum {
	FILLER = 0x5A,		/* stands where no byte of the input is asked for */
	MOST_STEPS = 11,	/* of a plan */
};

/* The numbers that are worth trying, by name. */
static const uint64_t tags[] = {
	REAM_TAG_FREE, REAM_TAG_LOG_COPYING, REAM_TAG_LOG, REAM_TAG_DATA_COPYING, REAM_TAG_DATA,
	REAM_TAG_BOOT_COPYING, REAM_TAG_BOOT,
};
static const uint64_t paths[] = { 0, 1, 6, REAM_PATH_MAX, REAM_PATH_MAX + 1 };
static const uint64_t counts[] = { 0, 1, REAM_COUNT_MAX, REAM_COUNT_MAX + 1 };
static const uint64_t blocks[] = { 8, 12, 1024, 8192, 8196, 16388, 24576, 32764, 32768, 4, 10, 32772, 16 };
static const uint64_t sizes[] = { 4, 5, 6, 7, 3, 8, 0, ((uint64_t)1 << 32) + 4 };
static const uint64_t small_blocks[] = {
	8, 0, 1, 2, 3, 4, 5, 16, 40, 1023, 1024, 1025, 65536 + 8, ((uint64_t)1 << 32) + 8,
};
static const uint64_t steps[] = { 0, 1, 2, 3, 4, 5, 6, 7, 8, 9, 10, 11 };
static const uint64_t kinds[] = { REAM_PRIMARY, REAM_MIRROR, 0, 3, 256 + 1, ((uint64_t)1 << 32) + 2 };
static const uint64_t versions[] = { 0, 1, 5, 127, 128, 255, 256, 256 + 5, ((uint64_t)1 << 32) + 5 };
static const uint64_t places[] = { 0, 1, 2, 3, 4, 256, (uint64_t)1 << 32, (uint64_t)1 << 53 };

#define NUMBERS(of) of, sizeof(of) / sizeof(of[0])

static const struct {
	const char *name;
	const uint64_t *number;
	unsigned count;
} worth_trying[] = {
	{ "tag", NUMBERS(tags) },
	{ "path", NUMBERS(paths) },
	{ "count", NUMBERS(counts) },
	{ "n", NUMBERS(blocks) },
	{ "size", NUMBERS(sizes) },
	{ "step", NUMBERS(steps) },
	{ "kind", NUMBERS(kinds) },
	{ "version", NUMBERS(versions) },
	{ "place", NUMBERS(places) },
	{ "number", NUMBERS(small_blocks) },
};

#undef NUMBERS

/* ---- the call that an input asks for */

/* A number of this name; any eight bytes, if none of that name is listed. */
static uint64_t take_named(struct input *input, const char *name)
{
	for (unsigned i = 0; i < sizeof(worth_trying) / sizeof(worth_trying[0]); i++)
		if (strcmp(worth_trying[i].name, name) == 0)
			return take_number(input, worth_trying[i].number, worth_trying[i].count);
	return take_wide(input, 8);
}

static void take_numbers(struct input *input, enum entry_index index, uint64_t *number)
{
	for (unsigned i = 0; i < entries[index].numbers; i++)
		number[i] = take_named(input, entries[index].number_name[i]);
}

/* Where a length is to be wrong: which buffer, and by how much. */
struct told {
	bool wrong;
	bool whole;	/* is `number` the length itself? */
	unsigned buffer;
	uint64_t number;
};

static struct told take_lengths(struct input *input, enum entry_index index)
{
	struct told told = { false, false, 0, 0 };
	const uint8_t first = take(input);
	uint8_t second;

	if (first < 192)
		return told;
	told.wrong = true;
	told.buffer = first % entries[index].buffers;
	second = take(input);
	told.whole = second >= 128;
	told.number = told.whole ? take_wide(input, 8) : (uint64_t)second - 64;
	return told;
}

/* Tells a length, and sets the bytes past the named length that the buffer then holds. */
static void tell(struct call *call, const struct told *told)
{
	size_t *len = &call->len[told->buffer];
	const size_t named = lent_held(*len);
	size_t held;

	if (!told->wrong)
		return;
	*len = (size_t)(told->whole ? told->number : *len + told->number);
	held = lent_held(*len);
	if (!has_length(call->index, told->buffer))
		*len = held;
	if (held > named)
		memset(call->bytes[told->buffer] + named, FILLER, held - named);
}

/* ---- what is lent */

/* A page's data and its spare: a byte says whether the spare is written for the data, with a tag, a path and a
 * count, or filled with any bytes. Then bits are flipped in both. */
static void lend_page(struct input *input, uint8_t *data, uint8_t *spare)
{
	take_bytes(input, data, REAM_SMALL_DATA_SIZE);
	if (take(input) % 2 == 0) {
		const uint64_t tag = take_named(input, "tag");
		const uint64_t path = take_named(input, "path");
		const uint64_t count = take_named(input, "count");

		memset(spare, FILLER, REAM_SMALL_SPARE_SIZE);
		ref_spare_write(data, REAM_SMALL_DATA_SIZE, tag, path, count, spare, REAM_SMALL_SPARE_SIZE);
	} else {
		take_bytes(input, spare, REAM_SMALL_SPARE_SIZE);
	}
	take_flips(input, data, REAM_SMALL_DATA_SIZE);
	take_flips(input, spare, REAM_SMALL_SPARE_SIZE);
}

/* A list of failed steps: a byte for how many, then their numbers. One below 128 stands for a plan's step, or for a
 * number close past its end. */
static void lend_failed(struct test *test, struct input *input)
{
	uint8_t failed[UINT8_MAX];
	const uint8_t count = take(input);

	for (unsigned i = 0; i < count; i++) {
		failed[i] = take(input);
		if (failed[i] < 128)
			failed[i] %= MOST_STEPS + 2;
	}
	call_lend_named(test, "failed", failed, count);
}

static void lend_region(struct fuzz *fuzz, struct input *input, uint64_t n, unsigned size)
{
	const struct region *region = &fuzz->build.region;
	struct test *test = &fuzz->test;

	build_region(&fuzz->build, input, n, size);
	call_lend_named(test, "image", region->image, region_image_len(region));
	call_lend_named(test, "status", region->status, region_status_len(region));
	call_lend_named(test, "wanted", fuzz->build.table[1], (size_t)n / 4);
	lend_failed(test, input);
}

/* Any bytes in each buffer that is no output. */
static void lend_bytes(struct call *call, struct input *input)
{
	const struct entry *entry = &entries[call->index];

	for (unsigned i = 0; i < entry->buffers; i++)
		if (entry->buffer[i].direction != OUT)
			take_bytes(input, call->bytes[i], lent_held(call->len[i]));
}

/* A chip that there is not: its buffers hold as many bytes as fit. */
static void lend_filler(struct call *call)
{
	for (unsigned i = 0; i < entries[call->index].buffers; i++)
		memset(call->bytes[i], FILLER, lent_held(call->len[i]));
}

static void lend(struct fuzz *fuzz, struct input *input)
{
	struct call *call = &fuzz->test.call;
	uint8_t data[REAM_SMALL_DATA_SIZE];

	if (has_number(call->index, "n") && !ream_region_fits(call->number[0], call->number[1]))
		lend_filler(call);
	else if (has_number(call->index, "number") && call->number[0] > REAM_SMALL_BLOCKS_MAX)
		lend_filler(call);
	else if (has_buffer(call->index, "image"))
		lend_region(fuzz, input, call->number[0], (unsigned)call->number[1]);
	else if (has_buffer(call->index, "spares"))
		build_blocks(call->bytes[0], (size_t)call->number[0], input);
	else if (call->index == SPARE_READ)
		lend_page(input, data, call->bytes[0]);
	else if (call->index == PAGE_READ)
		lend_page(input, call->bytes[0], call->bytes[1]);
	else
		lend_bytes(call, input);
}

/* ---- the same call on fenced buffers */

static void compare_fenced(struct fuzz *fuzz, bool at_end)
{
	struct test *test = &fuzz->test;
	const struct call *call = &test->call;
	const unsigned buffers = entries[call->index].buffers;
	uint8_t *at[MOST_BUFFERS];
	uint64_t answer;

	for (unsigned i = 0; i < buffers; i++)
		at[i] = fence_lend(&fuzz->fence[i], call->bytes[i], lent_held(call->len[i]), at_end);
	answer = entries[call->index].library(call->number, at, call->len);
	expect(test, answer == test->answer, "the answer on fenced buffers");
	for (unsigned i = 0; i < buffers; i++)
		expect(test, memcmp(at[i], call_left(test, i), lent_held(call->len[i])) == 0,
		       "what fenced buffers hold");
}

/* ---- an input */

static struct fuzz *begin(void)
{
	struct fuzz *fuzz = calloc(1, sizeof(*fuzz));
	bool made = fuzz != NULL;

	for (unsigned i = 0; made && i < MOST_BUFFERS; i++)
		made = fence_make(&fuzz->fence[i], LENT_ROOM);
	if (!made) {
		printf("fuzz: no memory\n");
		exit(EXIT_FAILURE);
	}
	fuzz->test.trying = "a fuzzed input";
	return fuzz;
}

/* What a call is made with depends on the input alone, whichever inputs came before. The lengths of the small
 * chip's entries, but for a number of blocks, are the same whatever their numbers are. */
static void run_input(struct fuzz *fuzz, struct input *input)
{
	struct test *test = &fuzz->test;
	const enum entry_index index = (enum entry_index)(take(input) % ENTRIES);
	const uint8_t guards = take(input);
	uint64_t number[MOST_NUMBERS] = { 0 };
	struct told told;

	take_numbers(input, index, number);
	told = take_lengths(input, index);
	test->state = guards;
	call_begin_large(test, index, number[0], number[1]);
	memcpy(test->call.number, number, sizeof(number));
	lend(fuzz, input);
	tell(&test->call, &told);
	test->calls[index] = guards;
	call_compare(test);
	compare_fenced(fuzz, guards % 2 == 0);
}

int LLVMFuzzerTestOneInput(const uint8_t *data, size_t size)
{
	static struct fuzz *fuzz;
	struct input input = { data, size };

	if (!fuzz)
		fuzz = begin();
	run_input(fuzz, &input);
	if (fuzz->test.differences != 0) {
		fflush(stdout);
		abort();
	}
	return 0;
}
