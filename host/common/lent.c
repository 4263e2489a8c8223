/* Lent buffers with guard bytes around them. */
#include "lent.h"

#include <string.h>

/* The guard byte at place i of the room. It differs from turn to turn, so that no value that a call
 * writes can stay unseen for long. */
static uint8_t guard_byte(uint8_t turn, size_t i)
{
	return (uint8_t)(turn * 29 + i * 7 + 0xA5);
}

size_t lent_held(size_t len)
{
	return len < LENT_ROOM ? len : LENT_ROOM;
}

void lent_set(struct lent *lent, const uint8_t *bytes, size_t len, uint8_t turn)
{
	size_t end;

	lent->len = len;
	lent->held = lent_held(len);
	lent->start = LENT_GUARD + turn % LENT_SHIFTS;
	lent->turn = turn;
	end = lent->start + lent->held;
	for (size_t i = lent->start - LENT_GUARD; i < lent->start; i++)
		lent->room[i] = guard_byte(turn, i);
	memcpy(lent->room + lent->start, bytes, lent->held);
	for (size_t i = end; i < end + LENT_GUARD; i++)
		lent->room[i] = guard_byte(turn, i);
}

bool lent_guarded(const struct lent *lent)
{
	const size_t end = lent->start + lent->held;

	for (size_t i = lent->start - LENT_GUARD; i < lent->start; i++)
		if (lent->room[i] != guard_byte(lent->turn, i))
			return false;
	for (size_t i = end; i < end + LENT_GUARD; i++)
		if (lent->room[i] != guard_byte(lent->turn, i))
			return false;
	return true;
}

uint8_t *lent_bytes(struct lent *lent)
{
	return lent->room + lent->start;
}
