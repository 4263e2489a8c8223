/*
 * The bytes of a fuzzed input, taken one after the other. Past its end there are zeros, so that every input is
 * a call.
 */
#ifndef INPUT_H
#define INPUT_H

#include <stddef.h>
#include <stdint.h>

struct input {
	const uint8_t *next;
	size_t left;
};

/* The next byte. */
uint8_t take(struct input *input);

/* A number of so many bytes, big endian. */
uint64_t take_wide(struct input *input, unsigned bytes);

/* A number below `limit`, which is at most 65,536: two bytes. */
unsigned take_below(struct input *input, size_t limit);

/* An argument. After a first byte below 128 one of the choices, below 192 three bytes, otherwise eight. */
uint64_t take_number(struct input *input, const uint64_t *choices, unsigned count);

/* Fills a buffer: a base, and up to seven bytes set. The first byte, m, has the base in bits 0-1 (all FF, all 00,
 * drawn from a seed of one byte, or a few bytes of the input again and again) and how many are set in bits 2-4. */
void take_bytes(struct input *input, uint8_t *bytes, size_t len);

/* Flips up to seven bits. */
void take_flips(struct input *input, uint8_t *bytes, size_t len);

#endif
