/* The bytes of a fuzzed input. */
#include "input.h"

#include <string.h>

#include "draw.h"

enum { FF, ZERO, DRAWN, REPEATED };

enum { MOST_REPEATED = 64 };

uint8_t take(struct input *input)
{
	if (input->left == 0)
		return 0;
	input->left--;
	return *input->next++;
}

uint64_t take_wide(struct input *input, unsigned bytes)
{
	uint64_t number = 0;

	for (unsigned i = 0; i < bytes; i++)
		number = number << 8 | take(input);
	return number;
}

unsigned take_below(struct input *input, size_t limit)
{
	return (unsigned)(take_wide(input, 2) % limit);
}

uint64_t take_number(struct input *input, const uint64_t *choices, unsigned count)
{
	const uint8_t first = take(input);

	if (first < 128)
		return choices[first % count];
	return take_wide(input, first < 192 ? 3 : 8);
}

/* A few bytes, as many as the first says, repeated. */
static void take_repeated(struct input *input, uint8_t *bytes, size_t len)
{
	uint8_t repeated[MOST_REPEATED];
	const unsigned count = 1 + take(input) % MOST_REPEATED;

	for (unsigned i = 0; i < count; i++)
		repeated[i] = take(input);
	for (size_t i = 0; i < len; i++)
		bytes[i] = repeated[i % count];
}

void take_bytes(struct input *input, uint8_t *bytes, size_t len)
{
	const uint8_t how = take(input);
	uint64_t state;

	switch (how & 3) {
	case FF:
		memset(bytes, 0xFF, len);
		break;
	case ZERO:
		memset(bytes, 0, len);
		break;
	case DRAWN:
		state = take(input);
		draw_bytes(&state, bytes, len);
		break;
	case REPEATED:
		take_repeated(input, bytes, len);
		break;
	}
	for (unsigned i = 0; i < (how >> 2 & 7u); i++) {
		const unsigned place = take_below(input, len);

		bytes[place] = take(input);
	}
}

void take_flips(struct input *input, uint8_t *bytes, size_t len)
{
	for (unsigned i = take(input) % 8; i > 0; i--) {
		const unsigned place = take_below(input, 8 * len);

		bytes[place / 8] ^= (uint8_t)(1 << place % 8);
	}
}
