/*
 * A buffer as it is lent to a call: the bytes, with guard bytes close before and behind them that no
 * call may touch.
 */
#ifndef LENT_H
#define LENT_H

#include <stdbool.h>
#include <stddef.h>
#include <stdint.h>

enum {
	LENT_GUARD = 64,	/* guard bytes on each side */
	LENT_SHIFTS = 16,	/* the bytes start at this many different alignments */
	LENT_ROOM = 1 << 17,	/* the most bytes that a buffer holds */
};

struct lent {
	size_t len;	/* the length told to the call */
	size_t held;	/* the bytes it really holds: len, or LENT_ROOM where more is told */
	size_t start;	/* where they start in room */
	uint8_t turn;	/* which guard bytes stand around them */
	uint8_t room[LENT_SHIFTS + LENT_GUARD + LENT_ROOM + LENT_GUARD];
};

/* How many bytes a buffer told to have `len` bytes holds. A longer one can only be refused, so that
 * nothing behind them is ever read. */
size_t lent_held(size_t len);

/* Puts a copy of the bytes between guards. `turn` chooses the guard bytes and the alignment. */
void lent_set(struct lent *lent, const uint8_t *bytes, size_t len, uint8_t turn);

/* Are all guard bytes as they were set? */
bool lent_guarded(const struct lent *lent);

/* The first of its bytes. */
uint8_t *lent_bytes(struct lent *lent);

#endif
