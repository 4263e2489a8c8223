/* A region built by a fuzzed input. */
#include "build.h"

#include <stdbool.h>
#include <string.h>

#include "drawn.h"
#include "reference.h"
#include "reamsickle.h"

enum act {
	WRITE_PRIMARY, WRITE_MIRROR, SPOIL, MARK, SET_OOB, SET_DATA, SET_STATUS, ERASE, STIR, UPDATE, RECOVER, ZERO,
	ACTS
};

enum {
	MOST_ACTS = 16,
	MOST_STEPS = 10,	/* of a plan */
};

/* The region as it is lent. */
#define LENT(region) \
	(region)->n, (region)->size, (region)->image, region_image_len(region), (region)->status, \
	region_status_len(region)

/* No step has failed. */
static const uint8_t no_failed[1];

static uint64_t plan(struct build *build, bool update, uint8_t *steps)
{
	const struct region *region = &build->snapshot;

	if (update)
		return ref_update_plan(LENT(region), build->table[1], (size_t)region->n / 4, no_failed, 0, steps,
				       REAM_STEPS_SIZE);
	return ref_recovery_plan(LENT(region), no_failed, 0, steps, REAM_STEPS_SIZE);
}

static uint64_t plan_page(struct build *build, bool update, unsigned step, uint8_t *page)
{
	const struct region *region = &build->snapshot;

	if (update)
		return ref_update_page(LENT(region), build->table[1], (size_t)region->n / 4, no_failed, 0, step, page,
				       PAGE_BYTES);
	return ref_recovery_page(LENT(region), no_failed, 0, step, page, PAGE_BYTES);
}

#undef LENT

/* Plans an update or a recovery, and carries out its first steps. */
static void carry_out(struct build *build, bool update, unsigned most)
{
	struct region *region = &build->region;
	uint8_t steps[REAM_STEPS_SIZE];
	uint64_t answer;

	build->snapshot = *region;
	answer = plan(build, update, steps);
	if (ream_refusal(answer) != REAM_OK)
		return;
	for (unsigned i = 0; i < ream_step_count(answer) && i < most; i++) {
		const struct ream_step step = ream_step_get(steps + (size_t)REAM_STEP_SIZE * i);
		const unsigned block = (unsigned)(step.block - region_first(region));

		if (step.kind == REAM_ERASE) {
			region_erase(region, block);
		} else {
			plan_page(build, update, i, region_data(region, block, step.page));
			*region_status(region, block, step.page) = 0;
		}
	}
}

static void perform(struct build *build, struct input *input)
{
	struct region *region = &build->region;
	const enum act act = (enum act)(take(input) % ACTS);
	const uint8_t place = take(input);
	const unsigned block = (place & 7u) % region->size, page = (place >> 3 & 3u) % region->pages;
	const unsigned bit = place >> 5 & 1;
	unsigned at;

	switch (act) {
	case WRITE_PRIMARY:
		region_copy(region, block, PRIMARY, take(input), build->table[bit]);
		break;
	case WRITE_MIRROR:
		region_copy(region, block, MIRROR, take(input), build->table[bit]);
		break;
	case SPOIL:
		drawn_spoil(&build->state, region, block, page, bit ? MIRROR : PRIMARY,
			    (enum way)(take(input) % WAYS));
		break;
	case MARK:
		region_oob(region, block, 0)[0] = 0;
		break;
	case SET_OOB:
		at = take(input) % PAGE_OOB;
		region_oob(region, block, page)[at] = take(input);
		break;
	case SET_DATA:
		at = take_below(input, PAGE_DATA);
		region_data(region, block, page)[at] = take(input);
		break;
	case SET_STATUS:
		*region_status(region, block, page) = take(input);
		break;
	case ERASE:
		region_erase(region, block);
		break;
	case STIR:
		drawn_stir(&build->state, region);
		break;
	case UPDATE:
	case RECOVER:
		carry_out(build, act == UPDATE, take(input) % (MOST_STEPS + 1));
		break;
	case ZERO:
		memset(region_oob(region, block, page), 0, PAGE_OOB);
		break;
	case ACTS:
		break;
	}
}

void build_region(struct build *build, struct input *input, uint64_t n, unsigned size)
{
	build->state = n;
	region_begin(&build->region, n, size);
	for (unsigned i = 0; i < TABLES; i++)
		take_bytes(input, build->table[i], (size_t)n / 4);
	for (unsigned acts = take(input) % MOST_ACTS; acts > 0; acts--)
		perform(build, input);
}
