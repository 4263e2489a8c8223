/* The code of a half in C that is written to be fast. */
#include "yardstick.h"

#include <string.h>

enum {
	HALF = 256,
	WORDS = HALF / 8,
	COLUMNS = 0x3F,		/* of a look into the table, CP0 to CP5 */
	ODD = 6,		/* and the bit of the parity */
};

/* The parity of a word's bits. */
static unsigned parity(uint64_t word)
{
	for (unsigned shift = 32; shift > 0; shift /= 2)
		word ^= word >> shift;
	return (unsigned)(word & 1);
}

/* CP(2k) counts the bits of a byte whose number has bit k 0, CP(2k + 1) those where it is 1. */
static uint8_t looked_up(uint8_t byte)
{
	static const uint8_t counted[6] = { 0x55, 0xAA, 0x33, 0xCC, 0x0F, 0xF0 };
	unsigned all = parity(byte) << ODD;

	for (unsigned j = 0; j < 6; j++)
		all |= parity(byte & counted[j]) << j;
	return (uint8_t)all;
}

void yard_table_make(struct yard_table *table)
{
	for (unsigned byte = 0; byte < 256; byte++)
		table->of[byte] = looked_up((uint8_t)byte);
}

/* Four bits, moved to bits 0, 2, 4 and 6. */
static unsigned spread(unsigned bits)
{
	bits = (bits | bits << 2) & 0x33;
	return (bits | bits << 1) & 0x55;
}

/* The stored byte of LP0 to LP7, or of LP8 to LP15: `odd` has the four of odd number, `even` the others. */
static uint8_t stored_lines(unsigned even, unsigned odd)
{
	return (uint8_t)~(spread(even) | spread(odd) << 1);
}

/* The code, from the addresses of all bytes of odd parity, XORed, and the look of all bytes, XORed. A line of
 * even number has the parity of the whole where its odd neighbour has none of it. */
static void store(unsigned lines, unsigned look, uint8_t *code)
{
	const unsigned even = lines ^ (look >> ODD & 1 ? 0xFF : 0);

	code[0] = stored_lines(even & 0xF, lines & 0xF);
	code[1] = stored_lines(even >> 4, lines >> 4);
	code[2] = (uint8_t)~((look & COLUMNS) << 2);
}

/* Goes on with `len` bytes from address 0. */
static void by_bytes(const struct yard_table *table, const uint8_t *bytes, unsigned len, unsigned lines,
		     uint8_t *code)
{
	unsigned look = 0;

	for (unsigned address = 0; address < len; address++) {
		const unsigned here = table->of[bytes[address]];

		look ^= here;
		lines ^= address & (0 - (here >> ODD));
	}
	store(lines, look, code);
}

void yard_by_table(const struct yard_table *table, const uint8_t *half, uint8_t *code)
{
	by_bytes(table, half, HALF, 0, code);
}

/* The parity of a word's bits, by the table. */
static unsigned word_parity(const struct yard_table *table, uint64_t word)
{
	word ^= word >> 32;
	word ^= word >> 16;
	word ^= word >> 8;
	return table->of[word & 0xFF] >> ODD;
}

void yard_by_words(const struct yard_table *table, const uint8_t *half, uint8_t *code)
{
	uint64_t words[WORDS];
	unsigned lines = 0;

	memcpy(words, half, HALF);
	for (unsigned count = WORDS / 2; count > 0; count /= 2) {
		uint64_t upper = 0;

		for (unsigned i = 0; i < count; i++) {
			upper ^= words[count + i];
			words[i] ^= words[count + i];
		}
		lines |= (8 * count) & (0 - word_parity(table, upper));
	}
	by_bytes(table, (const uint8_t *)words, 8, lines, code);
}
