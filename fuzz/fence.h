/*
 * Buffers between pages of memory that nobody may touch, so that a byte read or written beyond a buffer's end
 * ends the program. Guard bytes (lent.h) show writes alone, and no sanitizer watches the library, which is
 * native code as the prover made it.
 */
#ifndef FENCE_H
#define FENCE_H

#include <stdbool.h>
#include <stddef.h>
#include <stdint.h>

struct fence {
	uint8_t *first;		/* what may be touched .. */
	uint8_t *end;		/* .. up to here */
};

/* A fenced room for `room` bytes or more. Gives false if there is no memory. */
bool fence_make(struct fence *fence, size_t room);

/* Puts a copy of the bytes there, close to its end or to its start. */
uint8_t *fence_lend(const struct fence *fence, const uint8_t *bytes, size_t len, bool at_end);

#endif
