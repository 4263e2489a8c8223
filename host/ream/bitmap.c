/* The bitmap of a chip's first pair of tables. */
#include "bitmap.h"

#include <inttypes.h>

#include "factory.h"
#include "reamsickle.h"

static bool take_marks(uint8_t bitmap[MOST_BITMAP], const struct dump *dump, uint64_t chosen, struct notes *notes)
{
	struct factory factory;

	if (!factory_read(&factory, dump, "init: expected --bitmap"))
		return false;
	factory_look_at_region(&factory, notes);
	factory_clear(&factory, chosen);
	factory_bitmap(&factory, bitmap);
	return true;
}

bool bitmap_take(uint8_t bitmap[MOST_BITMAP], const char *path, struct dump *dump, uint64_t chosen,
		 struct notes *notes)
{
	char expected[80];

	if (!path)
		return take_marks(bitmap, dump, chosen, notes);
	snprintf(expected, sizeof(expected), "two bits for each of the chip's %" PRIu64 " blocks", dump->region.n);
	return input_read_whole(path, bitmap, ream_bitmap_size(dump->region.n), expected,
				&dump->read[dump->reads++]);
}
