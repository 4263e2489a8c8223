/*
 * The library as the driver of a history calls it: the four entries that plan and give pages, and those that making a
 * first pair takes. Every buffer is lent between guard bytes (lent.h). Of each call it is checked that no guard byte
 * and no input has changed, no output either if the call was refused, and no byte behind the last step of a plan; what
 * is found wrong stands in `broken`.
 */
#ifndef DRIVER_H
#define DRIVER_H

#include <stdint.h>

#include "lent.h"
#include "region.h"

/* The entries: so many of plans, and the others. */
enum asked {
	UPDATE_PLAN, RECOVERY_PLAN, UPDATE_PAGE, RECOVERY_PAGE, ASKS,
	TABLE_READ = ASKS, TABLE_PAGE, FIRST_BITMAP,
};

/* What is wrong with the arguments of a call. */
enum flaw { NO_FLAW, FLAW_N, FLAW_SIZE, FLAW_LENGTH, FLAW_STATUS, FLAWS };

/* The buffers of a call, WANTED for a bitmap or for marks. One that a call does not take has no bytes. */
enum buffer { IMAGE, STATUS, WANTED, FAILED, OUT, BUFFERS };

struct request {
	enum asked asked;
	const struct region *region;	/* the snapshot */
	const uint8_t *wanted;		/* of an update; the bitmap of TABLE_PAGE, the marks of FIRST_BITMAP */
	const uint8_t *failed;		/* the numbers of failed steps, .. */
	size_t failures;		/* .. so many; of a first plan none */
	uint64_t step;			/* of a page; its number in a primary, of TABLE_PAGE */
	uint8_t version;		/* of TABLE_PAGE */
	enum flaw flaw;
};

struct driver {
	struct lent lent[BUFFERS];
	uint8_t before[BUFFERS][MOST_REGION_BLOCKS * MOST_PAGES * PAGE_BYTES];	/* as they were lent */
	uint8_t turn;
	const char *broken;
};

/* Makes a call and gives the answer. `state` is that of draw(). */
uint64_t driver_ask(struct driver *driver, uint64_t *state, const struct request *request);

/* What the last call filled: 64 bytes of steps, the 2,112 bytes of a page, or N/4 bytes of a bitmap. */
const uint8_t *driver_out(struct driver *driver);

#endif
