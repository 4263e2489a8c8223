/*
 * What the documents say of a region made to order (scenes.h). The outcome of each of the region's entries follows
 * from the cast and the failed steps alone, with no look at a byte of the region: a second opinion beside the
 * reference's.
 */
#ifndef OUTCOMES_H
#define OUTCOMES_H

#include "scenes.h"

/* A plan: zeros for a block that failed, or none, and the copies that it makes, one after the other. */
struct plan {
	uint8_t version;
	bool zeroes;		/* is there a zero step? Then it is the first, */
	unsigned zeroed;	/* and on this block of the region. */
	unsigned copies;
	enum kind kind[KINDS];
	unsigned block[KINDS];	/* of the region */
};

/* What planning comes to. */
struct planned {
	unsigned refusal;	/* REAM_OK where there is a plan */
	struct plan plan;
	bool makes[KINDS];	/* is a copy of this kind made? */
	unsigned stands[KINDS];	/* the block where it is made, or stands */
	bool failed[MOST_REGION_BLOCKS];	/* the blocks that failed */
};

/* What UPDATE_PLAN or RECOVERY_PLAN comes to, no step failed. scene->made gets the table that it makes. */
struct planned planned_of(struct scene *scene, const struct cast *cast, enum entry_index index);

/* What that becomes when the step of this number fails. */
void planned_fail(struct planned *planned, const struct cast *cast, uint8_t number);

/* How many steps a plan has. */
unsigned plan_steps(const struct plan *plan, unsigned pages);

/* Calls UPDATE_PLAN or RECOVERY_PLAN and expects this outcome. */
void expect_planned(struct test *test, const struct scene *scene, enum entry_index index,
		    const struct planned *planned);

/* The same of the pages, UPDATE_PAGE or RECOVERY_PAGE. They are asked for one after the other, and a few past the
 * plan's end. */
void expect_pages(struct test *test, struct scene *scene, enum entry_index index, const struct planned *planned);

/* The plan, and what was done before steps failed, are carried out on the scene's region, with a table of the test's
 * own making: the pair is settled and holds that table. The region is lost. */
void expect_carried_out(struct test *test, struct scene *scene, const struct cast *cast,
			const struct planned *planned);

/* Expects the outcome of each of the region's entries, no step failed. */
void expect_cast(struct test *test, struct scene *scene, const struct cast *cast);

/* The same, and then the plan there is to carry out, an update's of a settled pair, otherwise recovery's, is. The
 * scene's region is lost. */
void expect_cast_carried_out(struct test *test, struct scene *scene, const struct cast *cast);

#endif
