/*
 * What the parts of the benchmark share: the two implementations, the inputs, and the timing of a trial.
 */
#ifndef BENCH_H
#define BENCH_H

#include <stdbool.h>
#include <stddef.h>
#include <stdint.h>

#include "region.h"
#include "yardstick.h"

enum {
	PAGES = 2048,
	REGIONS = 64,
	SMALL_CHIPS = 16,
	SMALL_BLOCKS = 1024,
	ROUNDS = 15,
	SEED = 20240229,
};

/* What a region holds. */
enum state {
	SETTLED,	/* a settled pair */
	BEHIND,		/* the mirror is one version behind, with an older table */
	ALONE,		/* the primary alone is good */
	DIFFERING,	/* versions equal, bitmaps different */
	CROWDED,	/* a settled pair, and in every other block a copy with its last page unreadable */
	CROWDED_ALONE,	/* the primary alone is good, and every other block is such a copy */
	STATES,
};

/* The entries, by the library or by the reference. */
struct implementation {
	uint64_t (*half_code)(const uint8_t *, size_t, uint8_t *, size_t);
	uint64_t (*spare_write)(const uint8_t *, size_t, uint64_t, uint64_t, uint64_t, uint8_t *, size_t);
	uint64_t (*spare_read)(const uint8_t *, size_t, uint8_t *, size_t);
	uint64_t (*page_read)(uint8_t *, size_t, const uint8_t *, size_t, uint8_t *, size_t);
	uint64_t (*boot_map)(uint64_t, const uint8_t *, size_t, uint8_t *, size_t, uint8_t *, size_t);
	uint64_t (*first_bitmap)(uint64_t, uint64_t, const uint8_t *, size_t, uint8_t *, size_t);
	uint64_t (*table_read)(uint64_t, uint64_t, const uint8_t *, size_t, const uint8_t *, size_t,
			       uint8_t *, size_t);
	uint64_t (*update_plan)(uint64_t, uint64_t, const uint8_t *, size_t, const uint8_t *, size_t,
				const uint8_t *, size_t, const uint8_t *, size_t, uint8_t *, size_t);
	uint64_t (*recovery_plan)(uint64_t, uint64_t, const uint8_t *, size_t, const uint8_t *, size_t,
				  const uint8_t *, size_t, uint8_t *, size_t);
	uint64_t (*update_page)(uint64_t, uint64_t, const uint8_t *, size_t, const uint8_t *, size_t,
				const uint8_t *, size_t, const uint8_t *, size_t, uint64_t, uint8_t *, size_t);
	uint64_t (*recovery_page)(uint64_t, uint64_t, const uint8_t *, size_t, const uint8_t *, size_t,
				  const uint8_t *, size_t, uint64_t, uint8_t *, size_t);
	uint64_t (*table_page)(uint64_t, uint64_t, const uint8_t *, size_t, uint64_t, uint64_t, uint64_t,
			       uint8_t *, size_t);
};

/* The inputs as prepared, and what is lent of them. */
struct bench {
	uint8_t clean[PAGES][512];	/* as written */
	uint8_t flipped[PAGES][512];	/* with one data bit flipped */
	uint8_t spare[PAGES][16];	/* as written */
	uint8_t worn[PAGES][16];	/* with one bit of the path word flipped */
	uint8_t not_ours[3][PAGES][16];	/* refused with 51, 52 and 53 */
	uint8_t data[PAGES][512];	/* lent */
	uint8_t made[16];
	uint8_t fields[11];
	struct yard_table table;
	uint8_t code[3];

	uint8_t written[SMALL_CHIPS][2 * SMALL_BLOCKS][16];	/* the spares of boot blocks, as prepared */
	uint8_t spares[SMALL_CHIPS][2 * SMALL_BLOCKS][16];	/* lent */
	uint8_t mapped[2 * SMALL_BLOCKS];
	uint8_t erased[2 * SMALL_BLOCKS];

	uint64_t n;					/* the blocks of the chip */
	unsigned size;					/* and of its region */
	size_t bitmap_len;
	struct region prepared[STATES][REGIONS];
	struct region region[REGIONS];			/* lent */
	uint8_t same[REGIONS][MOST_BITMAP];		/* the table in it */
	uint8_t wanted[REGIONS][MOST_BITMAP];		/* the same with one entry changed */
	uint8_t tables[REGIONS][MOST_BITMAP];		/* those in the regions, lent alone */
	uint8_t factory[REGIONS][2 * MOST_BLOCKS];	/* marks as prepared */
	uint8_t marks[REGIONS][2 * MOST_BLOCKS];	/* lent */
	size_t failed;					/* how many steps of each plan failed */
	uint8_t bitmap[MOST_BITMAP];
	uint8_t steps[64];
	uint8_t page[PAGE_BYTES];
};

/* A row of a table that is printed: an entry, on inputs that are lent anew for each round, with so many failed
 * steps. A round goes through all of them and gathers the refusals, or how they differ from the one that is meant: one
 * that is not 0 shows. */
struct trial {
	const char *entry;
	const char *inputs;
	size_t failed;
	void (*lend)(struct bench *);
	unsigned (*round)(struct bench *, const struct implementation *);
};

/* Times a trial by the library and by the reference, and prints its row. A round has so many inputs, and a timing
 * makes it so often. */
void run(struct bench *bench, const struct trial *trial, unsigned inputs, unsigned times);

/* The time of one call of the library, or of the reference, in nanoseconds, by a single timing. */
double time_library(struct bench *bench, const struct trial *trial, unsigned inputs, unsigned times);
double time_reference(struct bench *bench, const struct trial *trial, unsigned inputs, unsigned times);

/* The heads of the columns of such rows. */
void print_heads(void);

/* The time that this program has had a processor, in nanoseconds: others may be busy beside it. */
double now(void);

/* Of ROUNDS times. */
double median(double *times);

/* Draws the pages, writes their spares, flips one bit of each page and of each path word, and makes spares that are
 * not ours. */
void prepare_pages(struct bench *bench);

/* The tables: the small chip's entries, the code of a half by all who can make it, the map of boot blocks, the large
 * chip's entries on a chip of n blocks with the smallest region, and some of them by the size of the region. */
void bench_small(struct bench *bench);
void bench_halves(struct bench *bench);
void bench_boots(struct bench *bench);
void bench_large(struct bench *bench, uint64_t n);
void bench_sizes(struct bench *bench, uint64_t n);

#endif
