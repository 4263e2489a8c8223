/* What large.c and failed.c share: the region and the plans made from it. */
#ifndef PLANS_H
#define PLANS_H

#include <stdbool.h>
#include <stddef.h>
#include <stdint.h>

enum {
	MOST_REGION = 7,	/* blocks of the region, document 02 */
	MOST_BITMAP = 8192,	/* N/4 of the largest N */
	MOST_STEPS = 11,	/* "2P + 2 steps, at most ten", and a zero step */
};

/* "Refusal numbers", and document 02's: "A failed zero write is new refusal 12." */
enum refusal {
	ANSWERED = 0,
	WRONG_LENGTH = 1,
	OUT_OF_RANGE = 2,
	NO_GOOD_COPY = 7,
	SEVERAL_OF_A_KIND = 8,
	OPPOSITE_VERSIONS = 9,
	NOT_SETTLED = 10,
	NO_TARGET = 11,
	ZERO_FAILED = 12,
};

/* A lent image and its status bytes, of a valid N and size and of the right lengths. Its blocks are counted from 0,
 * lowest first. */
struct region {
	uint64_t n;
	uint64_t size;	/* its blocks, the last of the chip */
	size_t pages;	/* P */
	const uint8_t *image;
	const uint8_t *status;
};

enum kind { PRIMARY, MIRROR };

enum step_kind { ERASE = 0, WRITE = 1, ZERO = 2 };

struct step {
	enum step_kind kind;
	size_t block;		/* of the region */
	size_t page;		/* of a write, otherwise 0 */
	enum kind copy;		/* the kind of copy that it makes; of a zero step, that failed */
};

struct plan {
	uint8_t version;
	size_t count;
	struct step step[MOST_STEPS];
	size_t at[2];			/* the block where each copy stands or will be written, if there is one */
	uint8_t table[MOST_BITMAP];	/* what its writes put down */
};

bool ref_readable_as_bad(const struct region *region, size_t block);

/* Adds the steps of one copy, to be written to a block. */
void ref_plan_copy(struct plan *plan, const struct region *region, enum kind kind, size_t block);

/* What becomes of a plan when steps fail, by their numbers, oldest first: the plan, or a refusal. */
enum refusal ref_plan_again(const struct region *region, const uint8_t *failed, size_t failed_len,
			    struct plan *plan);

#endif
