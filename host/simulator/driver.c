/* The library as the driver of a history calls it. */
#include "driver.h"

#include <string.h>

#include "draw.h"
#include "reamsickle.h"

static bool is_update(enum asked asked)
{
	return asked == UPDATE_PLAN || asked == UPDATE_PAGE;
}

static bool takes_region(enum asked asked)
{
	return asked != TABLE_PAGE && asked != FIRST_BITMAP;
}

static bool is_plan(enum asked asked)
{
	return asked == UPDATE_PLAN || asked == RECOVERY_PLAN;
}

static void lend(struct driver *driver, enum buffer buffer, const uint8_t *bytes, size_t len)
{
	lent_set(&driver->lent[buffer], bytes, len, driver->turn);
}

/* The length of the wanted bitmap, or of what stands in its place. */
static size_t wanted_len(enum asked asked, uint64_t n)
{
	if (asked == FIRST_BITMAP)
		return ream_marks_size(n);
	return is_update(asked) || asked == TABLE_PAGE ? (size_t)n / 4 : 0;
}

static size_t out_len(enum asked asked, uint64_t n)
{
	if (asked == TABLE_READ || asked == FIRST_BITMAP)
		return (size_t)n / 4;
	return is_plan(asked) ? REAM_STEPS_SIZE : PAGE_BYTES;
}

/* Lends what a request names, with drawn bytes in the output. */
static void lend_all(struct driver *driver, uint64_t *state, const struct request *request)
{
	const struct region *region = request->region;
	const bool takes = takes_region(request->asked);
	const size_t wanted = wanted_len(request->asked, region->n);
	uint8_t out[MOST_BITMAP];

	memset(out, (int)draw_below(state, 256), sizeof(out));
	driver->turn++;
	lend(driver, IMAGE, region->image, takes ? region_image_len(region) : 0);
	lend(driver, STATUS, region->status, takes ? region_status_len(region) : 0);
	lend(driver, WANTED, wanted > 0 ? request->wanted : out, wanted);
	lend(driver, FAILED, request->failures > 0 ? request->failed : out, request->failures);
	lend(driver, OUT, out, out_len(request->asked, region->n));
}

/* A length that is not the one lent. Of the failed steps none is wrong. The bytes behind a buffer are the driver's
 * own, so nothing happens to others even where a length is told too long. */
static void spoil_length(struct driver *driver, uint64_t *state, enum asked asked)
{
	static const enum buffer buffers[] = { IMAGE, STATUS, OUT, WANTED };
	struct lent *lent = &driver->lent[buffers[draw_below(state, is_update(asked) ? 4 : 3)]];
	const size_t told = (size_t)draw_below(state, lent->held + LENT_GUARD);

	lent->len = told < lent->held ? told : told + 1;
}

/* The numbers of a call, as they are told. */
struct told {
	uint64_t n;
	uint64_t size;
	uint64_t step;
	uint64_t version;
};

/* Puts in the flaw. */
static void spoil_arguments(struct driver *driver, uint64_t *state, const struct request *request, struct told *told)
{
	const uint64_t no_numbers[] = { 0, 4, 9, 10, 32772, UINT64_MAX };
	const uint64_t no_sizes[] = { 0, 3, 8, told->n / 2 + 1, ((uint64_t)1 << 32) + told->size, UINT64_MAX };
	uint8_t no_status;

	switch (request->flaw) {
	case FLAW_N:
		told->n = no_numbers[draw_below(state, sizeof(no_numbers) / sizeof(no_numbers[0]))];
		break;
	case FLAW_SIZE:
		told->size = no_sizes[draw_below(state, sizeof(no_sizes) / sizeof(no_sizes[0]))];
		break;
	case FLAW_LENGTH:
		spoil_length(driver, state, request->asked);
		break;
	case FLAW_STATUS:
		no_status = (uint8_t)(2 + draw_below(state, 254));
		lent_bytes(&driver->lent[STATUS])[draw_below(state, driver->lent[STATUS].held)] = no_status;
		break;
	case NO_FLAW:
	case FLAWS:
		break;
	}
}

/* The library's entries. */
static uint64_t call(struct driver *driver, enum asked asked, const struct told *told)
{
	const uint64_t n = told->n, size = told->size;

#define LENT(buffer) lent_bytes(&driver->lent[buffer]), driver->lent[buffer].len
	switch (asked) {
	case UPDATE_PLAN:
		return ream_update_plan(n, size, LENT(IMAGE), LENT(STATUS), LENT(WANTED), LENT(FAILED), LENT(OUT));
	case RECOVERY_PLAN:
		return ream_recovery_plan(n, size, LENT(IMAGE), LENT(STATUS), LENT(FAILED), LENT(OUT));
	case UPDATE_PAGE:
		return ream_update_page(n, size, LENT(IMAGE), LENT(STATUS), LENT(WANTED), LENT(FAILED), told->step,
					LENT(OUT));
	case TABLE_READ:
		return ream_table_read(n, size, LENT(IMAGE), LENT(STATUS), LENT(OUT));
	case TABLE_PAGE:
		return ream_table_page(n, size, LENT(WANTED), REAM_PRIMARY, told->version, told->step, LENT(OUT));
	case FIRST_BITMAP:
		return ream_first_bitmap(n, size, LENT(WANTED), LENT(OUT));
	case RECOVERY_PAGE:
		break;
	}
	return ream_recovery_page(n, size, LENT(IMAGE), LENT(STATUS), LENT(FAILED), told->step, LENT(OUT));
#undef LENT
}

/* Checks what the call left of the buffers. */
static void check(struct driver *driver, bool refused)
{
	for (unsigned i = 0; i < BUFFERS; i++) {
		struct lent *lent = &driver->lent[i];

		if (!lent_guarded(lent))
			driver->broken = "no call writes outside its buffers";
		if ((refused || i != OUT) && memcmp(lent_bytes(lent), driver->before[i], lent->held) != 0)
			driver->broken = refused ? "a refused call changes nothing" : "no call changes an input";
	}
}

/* Checks the room behind the steps of a plan that was given. */
static void check_room(struct driver *driver, uint64_t answer)
{
	const size_t filled = (size_t)REAM_STEP_SIZE * ream_step_count(answer);

	if (filled > REAM_STEPS_SIZE)
		driver->broken = "a plan fits into its room";
	else if (memcmp(lent_bytes(&driver->lent[OUT]) + filled, driver->before[OUT] + filled,
			REAM_STEPS_SIZE - filled) != 0)
		driver->broken = "no call writes behind the last step of its plan";
}

uint64_t driver_ask(struct driver *driver, uint64_t *state, const struct request *request)
{
	struct told told = { request->region->n, request->region->size, request->step, request->version };
	uint64_t answer;

	lend_all(driver, state, request);
	spoil_arguments(driver, state, request, &told);
	for (unsigned i = 0; i < BUFFERS; i++)
		memcpy(driver->before[i], lent_bytes(&driver->lent[i]), driver->lent[i].held);
	answer = call(driver, request->asked, &told);
	check(driver, ream_refusal(answer) != REAM_OK);
	if (is_plan(request->asked) && ream_refusal(answer) == REAM_OK)
		check_room(driver, answer);
	return answer;
}

const uint8_t *driver_out(struct driver *driver)
{
	return lent_bytes(&driver->lent[OUT]);
}
