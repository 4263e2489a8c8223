/* Calls of the library's entries, compared with the reference. */
#include "calls.h"

#include <inttypes.h>
#include <stdio.h>
#include <stdlib.h>
#include <string.h>

#include "draw.h"
#include "reamsickle.h"
#include "reference.h"

/* ---- the entries */

/* Defines the calls of an entry, by the library and by the reference, with these arguments. */
#define CALLS(entry, ...)									\
static uint64_t library_##entry(const uint64_t *number, uint8_t *const *at, const size_t *len)	\
{												\
	(void)number;										\
	return ream_##entry(__VA_ARGS__);							\
}												\
												\
static uint64_t reference_##entry(const uint64_t *number, uint8_t *const *at, const size_t *len) \
{												\
	(void)number;										\
	return ref_##entry(__VA_ARGS__);							\
}

/* A buffer stands in a call as its bytes and the length told. */
#define LENT(i) at[i], len[i]

CALLS(half_code, LENT(0), LENT(1))
CALLS(spare_write, LENT(0), number[0], number[1], number[2], LENT(1))
CALLS(spare_read, LENT(0), LENT(1))
CALLS(page_read, LENT(0), LENT(1), LENT(2))
CALLS(first_bitmap, number[0], number[1], LENT(0), LENT(1))
CALLS(table_read, number[0], number[1], LENT(0), LENT(1), LENT(2))
CALLS(update_plan, number[0], number[1], LENT(0), LENT(1), LENT(2), LENT(3), LENT(4))
CALLS(recovery_plan, number[0], number[1], LENT(0), LENT(1), LENT(2), LENT(3))
CALLS(update_page, number[0], number[1], LENT(0), LENT(1), LENT(2), LENT(3), number[2], LENT(4))
CALLS(recovery_page, number[0], number[1], LENT(0), LENT(1), LENT(2), number[2], LENT(3))
CALLS(boot_map, number[0], LENT(0), LENT(1), LENT(2))
CALLS(table_page, number[0], number[1], LENT(0), number[2], number[3], number[4], LENT(1))

#undef LENT
#undef CALLS

/* Buffers that several entries take. */
#define IMAGE { "image", 2112, PAGE_OF_REGION, IN }
#define STATUS { "status", 1, PAGE_OF_REGION, IN }
#define WANTED { "wanted", 1, BYTE_OF_BITMAP, IN }
#define FAILED { "failed", 0, ANY_LENGTH, IN }
#define STEPS { "steps", 64, BYTE, OUT }
#define PAGE { "page", 2112, BYTE, OUT }

const struct entry entries[ENTRIES] = {
	[HALF_CODE] = {
		"ream_half_code", 0, { NULL },
		2, { { "half", 256, BYTE, IN }, { "code", 3, BYTE, OUT } },
		library_half_code, reference_half_code,
	},
	[SPARE_WRITE] = {
		"ream_spare_write", 3, { "tag", "path", "count" },
		2, { { "data", 512, BYTE, IN }, { "spare", 16, BYTE, OUT } },
		library_spare_write, reference_spare_write,
	},
	[SPARE_READ] = {
		"ream_spare_read", 0, { NULL },
		2, { { "spare", 16, BYTE, IN }, { "fields", 11, BYTE, OUT } },
		library_spare_read, reference_spare_read,
	},
	[PAGE_READ] = {
		"ream_page_read", 0, { NULL },
		3, { { "data", 512, BYTE, IN_OUT }, { "spare", 16, BYTE, IN }, { "fields", 11, BYTE, OUT } },
		library_page_read, reference_page_read,
	},
	[FIRST_BITMAP] = {
		"ream_first_bitmap", 2, { "n", "size" },
		2, { { "marks", 2, BLOCK_OF_CHIP, IN }, { "bitmap", 1, BYTE_OF_BITMAP, OUT } },
		library_first_bitmap, reference_first_bitmap,
	},
	[TABLE_READ] = {
		"ream_table_read", 2, { "n", "size" },
		3, { IMAGE, STATUS, { "bitmap", 1, BYTE_OF_BITMAP, OUT } },
		library_table_read, reference_table_read,
	},
	[UPDATE_PLAN] = {
		"ream_update_plan", 2, { "n", "size" },
		5, { IMAGE, STATUS, WANTED, FAILED, STEPS },
		library_update_plan, reference_update_plan,
	},
	[RECOVERY_PLAN] = {
		"ream_recovery_plan", 2, { "n", "size" },
		4, { IMAGE, STATUS, FAILED, STEPS },
		library_recovery_plan, reference_recovery_plan,
	},
	[UPDATE_PAGE] = {
		"ream_update_page", 3, { "n", "size", "step" },
		5, { IMAGE, STATUS, WANTED, FAILED, PAGE },
		library_update_page, reference_update_page,
	},
	[RECOVERY_PAGE] = {
		"ream_recovery_page", 3, { "n", "size", "step" },
		4, { IMAGE, STATUS, FAILED, PAGE },
		library_recovery_page, reference_recovery_page,
	},
	[BOOT_MAP] = {
		"ream_boot_map", 1, { "number" },
		3, { { "spares", 32, SMALL_BLOCK, IN }, { "mapped", 2, SMALL_BLOCK, OUT },
		     { "erased", 2, SMALL_BLOCK, OUT } },
		library_boot_map, reference_boot_map,
	},
	[TABLE_PAGE] = {
		"ream_table_page", 5, { "n", "size", "kind", "version", "place" },
		2, { { "bitmap", 1, BYTE_OF_BITMAP, IN }, PAGE },
		library_table_page, reference_table_page,
	},
};

#undef IMAGE
#undef STATUS
#undef WANTED
#undef FAILED
#undef STEPS
#undef PAGE

/* Where an entry has the number of this name; past its numbers if it has none. */
static unsigned number_place(enum entry_index index, const char *name)
{
	unsigned i = 0;

	while (i < entries[index].numbers && strcmp(entries[index].number_name[i], name) != 0)
		i++;
	return i;
}

/* The same of a buffer. */
static unsigned buffer_place(enum entry_index index, const char *name)
{
	unsigned i = 0;

	while (i < entries[index].buffers && strcmp(entries[index].buffer[i].name, name) != 0)
		i++;
	return i;
}

bool has_number(enum entry_index index, const char *name)
{
	return number_place(index, name) < entries[index].numbers;
}

bool has_buffer(enum entry_index index, const char *name)
{
	return buffer_place(index, name) < entries[index].buffers;
}

bool has_length(enum entry_index index, unsigned i)
{
	return entries[index].buffer[i].unit != ANY_LENGTH;
}

/* ---- messages */

/* A buffer's name, its length and its first bytes, as they were lent. */
static void show_buffer(const char *name, const uint8_t *bytes, size_t len)
{
	const size_t held = lent_held(len);

	printf("    %-10s%zu bytes:", name, len);
	for (size_t i = 0; i < held && i < SHOWN_BYTES; i++)
		printf(" %02X", bytes[i]);
	printf("%s\n", held > SHOWN_BYTES ? " .." : "");
}

/* What counts of each page of a region, image and status: how it reads, its mark, signature and version, and whether
 * its OOB is all zeros. */
static void show_region(const struct call *call)
{
	static const uint8_t zeros[64];
	const size_t pages = call->len[1];

	if (call->len[0] != 2112 * pages || lent_held(call->len[0]) != call->len[0])
		return;
	for (size_t page = 0; page < pages; page++) {
		const uint8_t *oob = call->bytes[0] + 2112 * page + 2048;

		printf("    page %-5zustatus %02X, OOB 0 %02X, OOB 14-18 %02X %02X %02X %02X %02X%s\n", page,
		       call->bytes[1][page], oob[0], oob[14], oob[15], oob[16], oob[17], oob[18],
		       memcmp(oob, zeros, sizeof(zeros)) == 0 ? ", 64 zeros" : "");
	}
}

/* What counts of a spare: path word, tag, status, and the magic-and-count word. */
static void show_spare(const uint8_t *spare)
{
	printf("  path %02X%02X%02X%02X tag %02X status %02X count %02X%02X%02X%02X", spare[0], spare[1], spare[2],
	       spare[3], spare[4], spare[5], spare[6], spare[7], spare[11], spare[12]);
}

/* The same of both spares of the first small-chip blocks that are not erased. */
static void show_spares(const struct call *call)
{
	const size_t blocks = lent_held(call->len[0]) / 32;
	unsigned shown = 0;
	uint8_t erased[32];

	memset(erased, 0xFF, sizeof(erased));
	for (size_t block = 0; block < blocks && shown < SHOWN_BLOCKS; block++) {
		const uint8_t *spares = call->bytes[0] + 32 * block;

		if (memcmp(spares, erased, sizeof(erased)) == 0)
			continue;
		printf("    block %-4zu", block);
		show_spare(spares);
		show_spare(spares + 16);
		printf("\n");
		shown++;
	}
}

static void show_call(const struct test *test)
{
	const struct call *call = &test->call;
	const struct entry *entry = &entries[call->index];

	printf("%s, call %" PRIu64 ", trying %s\n", entry->name, test->calls[call->index], test->trying);
	for (unsigned i = 0; i < entry->numbers; i++)
		printf("    %-10s%" PRIX64 " hex\n", entry->number_name[i], call->number[i]);
	for (unsigned i = 0; i < entry->buffers; i++)
		show_buffer(entry->buffer[i].name, call->bytes[i], call->len[i]);
	if (has_buffer(call->index, "image"))
		show_region(call);
	if (has_buffer(call->index, "spares"))
		show_spares(call);
	printf("    answer    %" PRIX64 " hex, reference %" PRIX64 " hex\n", test->answer,
	       test->reference_answer);
}

void expect(struct test *test, bool holds, const char *what)
{
	if (holds)
		return;
	test->differences++;
	show_call(test);
	printf("    differs:  %s\n", what);
	if (test->differences == MOST_DIFFERENCES)
		exit(test_end(test));
}

void expect_answer(struct test *test, uint64_t answer, const char *what)
{
	expect(test, test->answer == answer, what);
}

/* Expects buffer i to be as `other`, and names the first byte that is not. */
static void expect_bytes(struct test *test, unsigned i, const uint8_t *other, const char *whose)
{
	const uint8_t *bytes = call_left(test, i);
	char what[100];
	size_t at = 0;

	if (memcmp(bytes, other, test->library[i].held) == 0)
		return;
	while (bytes[at] == other[at])
		at++;
	snprintf(what, sizeof(what), "%s byte %zu is %02X, %s %02X", entries[test->call.index].buffer[i].name, at,
		 bytes[at], whose, other[at]);
	expect(test, false, what);
}

bool left_out(struct test *test)
{
	return test->one_in > 1 && test->round++ % test->one_in != 0;
}

int test_end(const struct test *test)
{
	uint64_t calls = 0;

	for (unsigned i = 0; i < ENTRIES; i++) {
		printf("%-20s%8" PRIu64 " calls\n", entries[i].name, test->calls[i]);
		calls += test->calls[i];
	}
	printf("host test: %" PRIu64 " calls compared, %" PRIu64 " differ\n", calls, test->differences);
	return test->differences == 0 ? EXIT_SUCCESS : EXIT_FAILURE;
}

/* ---- calls */

/* How many of a unit there are on a chip of n blocks, of the large one with a region of `size` blocks. */
static uint64_t units(enum unit unit, uint64_t n, uint64_t size)
{
	switch (unit) {
	case SMALL_BLOCK:
	case BLOCK_OF_CHIP:
		return n;
	case BYTE_OF_BITMAP:
		return n / 4;
	case PAGE_OF_REGION:
		return size * (n / 4 / 2048 + (n / 4 % 2048 != 0));
	case BYTE:
	case ANY_LENGTH:
		break;
	}
	return 1;
}

void call_begin_large(struct test *test, enum entry_index index, uint64_t n, uint64_t size)
{
	const struct entry *entry = &entries[index];
	struct call *call = &test->call;

	call->index = index;
	call->number[0] = n;
	call->number[1] = size;
	for (unsigned i = 0; i < entry->buffers; i++) {
		call->len[i] = entry->buffer[i].len * (size_t)units(entry->buffer[i].unit, n, size);
		if (entry->buffer[i].direction == OUT)
			draw_bytes(&test->state, call->bytes[i], lent_held(call->len[i]));
	}
}

void call_begin_small(struct test *test, enum entry_index index, uint64_t number)
{
	call_begin_large(test, index, number, 0);
}

void call_begin(struct test *test, enum entry_index index)
{
	call_begin_large(test, index, 0, 0);
}

void call_lend(struct test *test, unsigned i, const uint8_t *bytes, size_t len)
{
	memcpy(test->call.bytes[i], bytes, len);
	if (!has_length(test->call.index, i))
		test->call.len[i] = len;
}

void call_lend_named(struct test *test, const char *name, const uint8_t *bytes, size_t len)
{
	const struct entry *entry = &entries[test->call.index];
	const unsigned i = buffer_place(test->call.index, name);

	if (i < entry->buffers && entry->buffer[i].direction != OUT)
		call_lend(test, i, bytes, len);
}

void call_set_named(struct test *test, const char *name, uint64_t number)
{
	const unsigned i = number_place(test->call.index, name);

	if (i < entries[test->call.index].numbers)
		test->call.number[i] = number;
}

const uint8_t *call_left(struct test *test, unsigned i)
{
	return lent_bytes(&test->library[i]);
}

/* Makes the call on copies of its bytes between guards. */
static uint64_t call_between_guards(const struct test *test, entry_call *make, struct lent *buffers)
{
	const struct call *call = &test->call;
	const uint8_t turn = (uint8_t)test->calls[call->index];
	uint8_t *at[MOST_BUFFERS];

	for (unsigned i = 0; i < entries[call->index].buffers; i++) {
		lent_set(&buffers[i], call->bytes[i], call->len[i], turn);
		at[i] = lent_bytes(&buffers[i]);
	}
	return make(call->number, at, call->len);
}

uint64_t call_compare(struct test *test)
{
	const struct call *call = &test->call;
	const struct entry *entry = &entries[call->index];

	test->answer = call_between_guards(test, entry->library, test->library);
	test->reference_answer = call_between_guards(test, entry->reference, test->reference);
	test->calls[call->index]++;

	expect(test, test->answer == test->reference_answer, "the answer");
	for (unsigned i = 0; i < entry->buffers; i++) {
		expect_bytes(test, i, lent_bytes(&test->reference[i]), "the reference's");
		if (ream_refusal(test->answer) != REAM_OK || entry->buffer[i].direction == IN)
			expect_bytes(test, i, call->bytes[i], "lent as");
		expect(test, lent_guarded(&test->library[i]), "the library wrote outside a buffer");
		expect(test, lent_guarded(&test->reference[i]), "the reference wrote outside a buffer");
	}
	return test->answer;
}
