/* Small-chip blocks built by a fuzzed input. */
#include "blocks.h"

#include <stdio.h>
#include <stdlib.h>
#include <string.h>

#include "draw.h"
#include "reamsickle.h"
#include "reference.h"

enum act { LAY, AGAIN, WRITE_PAGE, FLIP, ERASE, SET_STATUS, FILL, ACTS };

enum order { RISING, FALLING, EVERY_OTHER, DRAWN };

enum {
	MOST_ACTS = 16,
	SPARE = REAM_SMALL_SPARE_SIZE,
	BOTH = REAM_BOOT_SPARES_SIZE,
	COUNT = 1000,		/* the erase count that is written */
};

static const uint8_t tags[] = {
	REAM_TAG_FREE, REAM_TAG_LOG_COPYING, REAM_TAG_LOG, REAM_TAG_DATA_COPYING, REAM_TAG_DATA,
	REAM_TAG_BOOT_COPYING, REAM_TAG_BOOT,
};

/* Of the first boot numbers, at the largest number of blocks, and the largest there is. */
static const uint64_t paths[] = { 0, 1, 2, 3, 4, 5, 6, 7, 8, 12, 4 * 1022, 4 * 1023, 4 * 1024, REAM_PATH_MAX };

static void write_spare(uint8_t *spare, uint8_t tag, uint64_t path)
{
	static const uint8_t data[REAM_SMALL_DATA_SIZE];

	if (!ream_ok(ream_spare_write(data, sizeof(data), tag, path % (REAM_PATH_MAX + 1), COUNT, spare, SPARE))) {
		printf("fuzz: ream_spare_write refused a block that is lent\n");
		fflush(stdout);
		abort();
	}
}

static void lay(uint8_t *spares, uint64_t path)
{
	write_spare(spares, REAM_TAG_BOOT, path);
	memcpy(spares + SPARE, spares, SPARE);
}

/* ---- boot numbers in the first blocks */

/* The order in which the blocks come, each once. */
static void order_blocks(uint16_t *block, size_t count, enum order order, uint64_t state)
{
	for (size_t i = 0; i < count; i++) {
		const size_t k = order == DRAWN ? (size_t)draw_below(&state, i + 1) : i;

		block[i] = block[k];
		if (order == FALLING)
			block[k] = (uint16_t)(count - 1 - i);
		else if (order == EVERY_OTHER)
			block[k] = (uint16_t)(2 * i < count ? 2 * i : 2 * (i - (count + 1) / 2) + 1);
		else
			block[k] = (uint16_t)i;
	}
}

static void lay_out(uint8_t *spares, size_t number, struct input *input)
{
	const uint8_t how = take(input);
	const enum order order = (enum order)(how & 3);
	const uint64_t seed = order == DRAWN ? take(input) : 0;
	const size_t count = take_below(input, number + 1), each = how & 4 ? 2 : 1;
	uint16_t block[REAM_SMALL_BLOCKS_MAX];

	order_blocks(block, count, order, seed);
	for (size_t i = 0; i < count; i++)
		lay(spares + BOTH * (size_t)block[i], 4 * (i / each) + ((how >> 3) + i % each) % 4);
}

/* ---- acts */

/* The boot number of a block, in a later generation; if that can be read. */
static void lay_again(uint8_t *spares, const uint8_t *other, unsigned later)
{
	uint8_t bytes[REAM_FIELDS_SIZE];
	uint32_t path;

	if (ream_refusal(ref_spare_read(other, SPARE, bytes, sizeof(bytes))) != REAM_OK)
		return;
	path = ream_fields_get(bytes).path;
	lay(spares, 4 * (uint64_t)ream_boot_number(path) + (ream_boot_generation(path) + later) % 4);
}

static void perform(uint8_t *spares, size_t number, struct input *input)
{
	const enum act act = (enum act)(take(input) % ACTS);
	uint8_t *at = spares + BOTH * (size_t)take_below(input, number);
	const uint8_t *other;
	uint8_t byte;

	switch (act) {
	case LAY:
		lay(at, take_number(input, paths, sizeof(paths) / sizeof(paths[0])));
		break;
	case AGAIN:
		other = spares + BOTH * (size_t)take_below(input, number);
		lay_again(at, other, take(input));
		break;
	case WRITE_PAGE:
		byte = take(input);
		write_spare(at + (byte & 1 ? SPARE : 0), tags[(byte >> 1 & 7u) % sizeof(tags)],
			    take_number(input, paths, sizeof(paths) / sizeof(paths[0])));
		break;
	case FLIP:
		take_flips(input, at, BOTH);
		break;
	case ERASE:
		memset(at, 0xFF, BOTH);
		break;
	case SET_STATUS:
		byte = take(input);
		at[(byte & 1 ? SPARE : 0) + 5] = take(input);
		break;
	case FILL:
		take_bytes(input, at, BOTH);
		break;
	case ACTS:
		break;
	}
}

void build_blocks(uint8_t *spares, size_t number, struct input *input)
{
	memset(spares, 0xFF, BOTH * number);
	lay_out(spares, number, input);
	for (unsigned acts = take(input) % MOST_ACTS; acts > 0 && number > 0; acts--)
		perform(spares, number, input);
}
