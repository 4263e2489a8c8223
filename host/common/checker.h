/*
 * The checker of a history: demand 3, judged from outside, and the plans that the documents ask for. It never calls
 * the library. The region is read by the reference and by region.c, the new table is made here, its pages are laid
 * out by region.c, and the plans are those of expected.c.
 *
 * A history tells it what happened, in this order: checker_begin() with the start; at each planning
 * checker_update() or checker_recovery(), and checker_plan() with the steps; checker_page() with each page that is
 * given; before a step begins checker_erase(), checker_write() or checker_zero(); when a step fails checker_failed(),
 * with what planning again gave, and checker_plan() with the new steps; when a plan ends, is cut, is replaced or is
 * given up checker_closed(), once the region is as that left it; then checker_updated() or checker_recovered() where
 * the plan ran to its end; and checker_event() after each event. The first rule that is found broken stands in
 * `broken`.
 *
 * A history that starts with no good copy tells it checker_begin_bare(), checker_erase() and checker_write() while the
 * first primary is made, and checker_begin_first() once it is complete; then it goes on as above.
 *
 * checker_told() judges one step by itself, for a history that leaves the steps' order to others.
 */
#ifndef CHECKER_H
#define CHECKER_H

#include <stdbool.h>
#include <stdint.h>

#include "expected.h"
#include "region.h"

/* A table with its version. */
struct table {
	uint8_t version;
	uint8_t bitmap[MOST_BITMAP];
};

/* Which table a finished recovery has to find. */
enum found { FOUND_ONE, FOUND_OLD, FOUND_NEW };

struct checker {
	struct table old;	/* when the last update that was not refused was planned; the start's before that */
	struct table new;	/* what the update rule makes of it */
	bool one;		/* no update yet, or an empty one: both are one table, and there is no new primary */
	bool open;		/* the update's plan has not ended, and was not cut, replaced or given up yet */
	bool complete;		/* did a new primary stand with all pages complete when that happened .. */
	bool in_failed;		/* .. in a block of which a step had failed? */
	struct expected plan;	/* the plan in hand .. */
	uint8_t table[MOST_BITMAP];	/* .. and the table that it writes */
	uint8_t last[MOST_BITMAP];	/* the last settled table */
	const char *broken;
};

/* Is the pair of a region settled? */
bool checker_settled(const struct region *region);

/* Gives false if the region is not settled, so that no history can start there. */
bool checker_begin(struct checker *checker, const struct region *region);

/* Gives false if the region has a good copy, so that no first primary can be made there. */
bool checker_begin_bare(struct checker *checker, const struct region *region);

/* The first primary is complete, of this table. There is no other one. */
void checker_begin_first(struct checker *checker, const struct region *region, const struct table *table);

/* Has a block the first so many pages of a primary of this table, complete? */
bool checker_primary(const struct region *region, unsigned block, const struct table *table, unsigned pages);

/* The refusal of reading a region's table, by the reference. */
unsigned checker_read(const struct region *region);

/* An update was planned with this wanted bitmap, or was refused for what the region holds. */
void checker_update(struct checker *checker, const struct region *region, const uint8_t *wanted, bool refused);

/* A recovery was planned, with so many steps, or was refused. */
void checker_recovery(struct checker *checker, const struct region *region, bool refused, unsigned count);

/* That plan was given, or the one after a failed step: its version, its steps, four bytes each, and their number. */
void checker_plan(struct checker *checker, const struct region *region, unsigned version, const uint8_t *steps,
		  unsigned count);

/* A plan tells a step on this chip block and page. */
void checker_told(struct checker *checker, const struct region *region, uint64_t block, unsigned page);

/* A block of the region is about to be erased, or a page of it to be written. */
void checker_erase(struct checker *checker, const struct region *region, unsigned block);
void checker_write(struct checker *checker, const struct region *region, unsigned block, unsigned page);

/* Zeros are about to be written to a block of the region. */
void checker_zero(struct checker *checker, unsigned block);

/* This page was given for a step of the plan in hand, by its number. */
void checker_page(struct checker *checker, const struct region *region, unsigned number, const uint8_t *page);

/* A step of the plan in hand has failed, by its number. Planning again was answered, or refused so. */
void checker_failed(struct checker *checker, const struct region *region, unsigned number, unsigned refusal);

/* The plan in hand, if any, has ended, was cut, was replaced or was given up. */
void checker_closed(struct checker *checker, const struct region *region);

/* An update ran to its end. */
void checker_updated(struct checker *checker, const struct region *region);

/* A recovery ran to its end. Gives which table it has to hold. */
enum found checker_recovered(struct checker *checker, const struct region *region);

/* An event is over. */
void checker_event(struct checker *checker, const struct region *region);

#endif
