/*
 * Small-chip blocks built by a fuzzed input: boot numbers laid out in the first of them, and up to fifteen acts. A few
 * bytes so reach a thousand boot blocks in order, and what goes wrong with them.
 */
#ifndef BLOCKS_H
#define BLOCKS_H

#include <stddef.h>
#include <stdint.h>

#include "input.h"

/*
 * The bytes: how the numbers are laid out, how many blocks hold them (take_below), the number of acts, the acts. Other
 * blocks are erased.
 *
 * How: bits 0-1 the order of the numbers (rising, falling, every other one first, or drawn with the seed that the next
 * byte is), bit 2 whether two blocks hold each, an older and a newer, bits 3-4 the generation of the (older) block.
 *
 * An act is its kind, a block (take_below), and what the kind asks for:
 *
 *	0	a boot block: path (take_number)
 *	1	the boot number of another block: that block (take_below), how many generations later
 *	2	one page written: a byte (bit 0 the last page, bits 1-3 the tag, modulo 7), path (take_number)
 *	3	flip bits of both spares (take_flips)
 *	4	erase
 *	5	set the status of one page: a byte (bit 0 the last page), value
 *	6	any bytes in both spares (take_bytes)
 *
 * `number` is at most 1,024; `spares` has 32 bytes for each.
 */
void build_blocks(uint8_t *spares, size_t number, struct input *input);

#endif
