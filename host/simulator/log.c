/* The log of a history. */
#include "log.h"

#include <inttypes.h>
#include <stdio.h>

/* FNV-1a, 64 bits. */
static uint64_t add_byte(uint64_t sum, uint8_t byte)
{
	return (sum ^ byte) * 0x100000001B3;
}

static uint64_t add_bytes(uint64_t sum, const uint8_t *bytes, size_t len)
{
	for (size_t i = 0; i < len; i++)
		sum = add_byte(sum, bytes[i]);
	return sum;
}

static uint64_t checksum(const struct history *history)
{
	const struct region *region = &history->region;
	uint64_t sum = 0xCBF29CE484222325;

	for (unsigned low = 0; low < 64; low += 8)
		sum = add_byte(sum, (uint8_t)(history->state >> low));
	sum = add_bytes(sum, region->image, region_image_len(region));
	return add_bytes(sum, region->status, region_status_len(region));
}

void log_line(const struct history *history, const char *text)
{
	printf("%016" PRIx64 " %s\n", checksum(history), text);
}
