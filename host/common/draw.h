/*
 * Numbers that look random and are the same in every run (SplitMix64), for the inputs of the host
 * programs.
 *
 * They are the same with every compiler too, as long as no expression has two draws whose order is the compiler's
 * choice: such draws are statements of their own.
 */
#ifndef DRAW_H
#define DRAW_H

#include <stddef.h>
#include <stdint.h>

/* The next 64 bits. */
static inline uint64_t draw(uint64_t *state)
{
	uint64_t z = *state += 0x9E3779B97F4A7C15;

	z = (z ^ z >> 30) * 0xBF58476D1CE4E5B9;
	z = (z ^ z >> 27) * 0x94D049BB133111EB;
	return z ^ z >> 31;
}

/* A number below `limit`, which is small beside 2^64. */
static inline uint64_t draw_below(uint64_t *state, uint64_t limit)
{
	return draw(state) % limit;
}

/* A number of any width, up to 64 bits. */
static inline uint64_t draw_of_any_width(uint64_t *state)
{
	const uint64_t number = draw(state);

	return number >> draw_below(state, 64);
}

static inline void draw_bytes(uint64_t *state, uint8_t *bytes, size_t len)
{
	for (size_t i = 0; i < len; i++)
		bytes[i] = (uint8_t)draw(state);
}

#endif
