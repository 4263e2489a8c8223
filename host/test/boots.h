/*
 * Blocks of the small chip made to order, for ream_boot_map: boot numbers are laid out one after the other, from 0 on,
 * right or wrong, with blocks between them that are passed over. What the map has to be follows from that, with no
 * look at a byte of the spares: a second opinion beside the reference's.
 */
#ifndef BOOTS_H
#define BOOTS_H

#include <stdbool.h>
#include <stdint.h>

#include "calls.h"

enum { MOST_BOOTS = 1024, SPARE_BYTES = 16 };

/* In which order the chip's blocks are used. */
enum order { RISING, FALLING, SHUFFLED, ORDERS };

/* The pages of a block that are lent. */
enum lent_page { FIRST, LAST, LENT_PAGES };

/* How a boot number is wrong: there is no block of it (a higher one has to follow), two of one generation or of such
 * that are two apart, three, or four. */
enum wrong { MISSING, SAME, TWO_APART, THREE, FOUR, WRONGS };

/* Why a block is passed over. */
enum passed {
	ERASED,			/* all FF */
	ZEROED,			/* all 00 */
	OTHER_TAG,		/* a tag other than boot on both pages */
	OTHER_TAG_FIRST,	/* or on one of them */
	OTHER_TAG_LAST,
	LOST_TAG,		/* two bits of a tag flipped */
	OTHER_GENERATION,	/* on the last page */
	OTHER_NUMBER,
	BAD_FIRST,		/* a bad block, by the status byte of one page */
	BAD_LAST,
	OTHER_MAGIC,		/* on one page */
	PASSED,
};

struct boots {
	unsigned number;	/* of blocks */
	uint8_t spares[MOST_BOOTS][LENT_PAGES][SPARE_BYTES];
	uint16_t place[MOST_BOOTS];	/* the blocks, in the order in which they are used */
	unsigned used;
	bool worn;		/* are bits flipped that reading puts right? */

	uint32_t next;		/* the next boot number */
	bool refused;		/* is one wrong? */
	uint32_t smallest;	/* The smallest that is. */
	unsigned mapped, erased;	/* Otherwise the counts of both lists, */
	uint16_t mapped_block[MOST_BOOTS], erased_block[MOST_BOOTS];	/* and what they hold. */
};

/* Blocks that are all erased. */
void boots_begin(struct test *test, struct boots *boots, unsigned number, enum order order);

/* ---- the spares of a block. Bytes and bits that must not count, and erase counts, are drawn. */

void boots_write_page(struct test *test, struct boots *boots, unsigned block, enum lent_page page, uint8_t tag,
		      uint32_t path);
void boots_write(struct test *test, struct boots *boots, unsigned block, uint8_t tag, uint32_t path);

/* ---- laying out, each in the next blocks */

/* A block of this boot number. */
void boots_lay(struct test *test, struct boots *boots, uint32_t number, unsigned generation);

/* The next boot number: one block; two, of which the one of this generation is the older; or it is wrong. */
void boots_one(struct test *test, struct boots *boots, unsigned generation);
void boots_pair(struct test *test, struct boots *boots, unsigned generation);
void boots_wrong(struct test *test, struct boots *boots, enum wrong wrong);

/* A block that is passed over. */
void boots_pass(struct test *test, struct boots *boots, enum passed passed);

/* ---- calls */

/* Sets up a call of BOOT_MAP; `inputs` is struct boots. */
void boots_set_up(struct test *test, enum entry_index index, const void *inputs);

uint64_t boots_call(struct test *test, const struct boots *boots);

/* Calls, and expects what was laid out. */
void expect_boots(struct test *test, const struct boots *boots);

/* Calls, and expects refusal 13 with this boot number. */
void expect_no_set(struct test *test, const struct boots *boots, uint32_t number);

#endif
