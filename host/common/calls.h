/*
 * Calls of the library's entries, each made to the reference as well, on equal inputs, and compared: the
 * answer, each lent byte, and the guard bytes around each buffer. Two rules are checked of the library
 * besides: an input is never changed, and a refused call changes nothing.
 *
 * A call is made in three steps: call_begin(), call_begin_small() for an entry that takes a number of small-chip
 * blocks, or call_begin_large() for one of the large chip, names the entry, sets every length to the one that the
 * documents name, or to 0 where any goes, and fills the outputs with bytes drawn anew; call_lend(), or a store to
 * the call's numbers, lengths and bytes, sets the rest; call_compare() makes the call both ways.
 *
 * An entry is a row of the table `entries`. A new entry of the library is a new row, at its end.
 */
#ifndef CALLS_H
#define CALLS_H

#include <stdbool.h>
#include <stddef.h>
#include <stdint.h>

#include "lent.h"

enum {
	MOST_NUMBERS = 5,
	MOST_BUFFERS = 5,
	MOST_DIFFERENCES = 5,	/* a test ends after this many */
	SHOWN_BYTES = 16,	/* a message shows so many bytes of a buffer */
	SHOWN_BLOCKS = 20,	/* and so many small-chip blocks */
};

/* The entries. The inputs of fuzz/corpus have these numbers, so a new entry goes to the end. */
enum entry_index {
	HALF_CODE, SPARE_WRITE, SPARE_READ, PAGE_READ,
	FIRST_BITMAP, TABLE_READ, UPDATE_PLAN, RECOVERY_PLAN, UPDATE_PAGE, RECOVERY_PAGE,
	BOOT_MAP,
	TABLE_PAGE,
	ENTRIES,
};

enum direction { IN, OUT, IN_OUT };

/* What a buffer's length is counted in; or any length goes, and none is wrong. */
enum unit { BYTE, SMALL_BLOCK, BLOCK_OF_CHIP, BYTE_OF_BITMAP, PAGE_OF_REGION, ANY_LENGTH };

/* An entry with its numbers, its buffers and their lengths in arrays, each in the order of the parameters. */
typedef uint64_t entry_call(const uint64_t *number, uint8_t *const *at, const size_t *len);

struct entry {
	const char *name;
	unsigned numbers;
	const char *number_name[MOST_NUMBERS];
	unsigned buffers;
	struct {
		const char *name;
		size_t len;		/* the length named is this many bytes .. */
		enum unit unit;		/* .. for each of these */
		enum direction direction;
	} buffer[MOST_BUFFERS];
	entry_call *library;
	entry_call *reference;
};

extern const struct entry entries[ENTRIES];

/* Has an entry a number, or a buffer, of this name? The large chip's entries have "n" and "size", the region's,
 * as their first two numbers; one that takes a number of small-chip blocks has "number" as its first, and no other has
 * that: the number of a page in its copy is "place". */
bool has_number(enum entry_index index, const char *name);
bool has_buffer(enum entry_index index, const char *name);

/* Is there a length of an entry's buffer i that is wrong? Of a list that may have any length there is none, and the
 * bytes that are told of are really there. */
bool has_length(enum entry_index index, unsigned i);

/* What a call is made with. */
struct call {
	enum entry_index index;
	uint64_t number[MOST_NUMBERS];
	size_t len[MOST_BUFFERS];
	uint8_t bytes[MOST_BUFFERS][LENT_ROOM];
};

struct test {
	const char *trying;		/* what is being tried, for messages */
	uint64_t state;			/* of draw() */
	uint64_t one_in;		/* of the rounds of a long trial one in so many is made; 0: all */
	uint64_t round;			/* of long trials, counted */
	uint64_t calls[ENTRIES];	/* calls compared */
	uint64_t differences;
	struct call call;		/* the last call, as it was made */
	uint64_t answer;		/* the library's */
	uint64_t reference_answer;
	struct lent library[MOST_BUFFERS];	/* the buffers as the library left them */
	struct lent reference[MOST_BUFFERS];	/* and as the reference did */
};

void call_begin(struct test *test, enum entry_index index);

/* The same for an entry that takes a number of small-chip blocks, with the lengths that go with it; it may be any
 * number. */
void call_begin_small(struct test *test, enum entry_index index, uint64_t number);

/* The same for an entry of the large chip, with the lengths that go with n and the region's size, which may be any
 * numbers. */
void call_begin_large(struct test *test, enum entry_index index, uint64_t n, uint64_t size);

/* Sets the first bytes of buffer i. Where any length goes, this is it. */
void call_lend(struct test *test, unsigned i, const uint8_t *bytes, size_t len);

/* The same of the buffer, or the number, of this name, if the entry has it and it is no output. */
void call_lend_named(struct test *test, const char *name, const uint8_t *bytes, size_t len);
void call_set_named(struct test *test, const char *name, uint64_t number);

/* Gives the library's answer. */
uint64_t call_compare(struct test *test);

/* Buffer i as the library left it. */
const uint8_t *call_left(struct test *test, unsigned i);

/* Counts a difference and shows it with the last call, unless `holds`. */
void expect(struct test *test, bool holds, const char *what);

/* Expects the library's last answer to be this one. */
void expect_answer(struct test *test, uint64_t answer, const char *what);

/* Is this round of a long trial left out? */
bool left_out(struct test *test);

/* Prints how many calls were compared and how many differences were found; gives the exit status. */
int test_end(const struct test *test);

#endif
