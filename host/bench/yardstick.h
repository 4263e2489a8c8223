/*
 * The code of a half in C that is written to be fast, for the benchmark: by a table, as drivers have long done
 * it, and by folding words. Both are written from document 01.
 */
#ifndef YARDSTICK_H
#define YARDSTICK_H

#include <stdint.h>

/* What is known of each byte: CP0 to CP5 over its bits in bits 0-5, and the parity of all its bits in bit 6. */
struct yard_table {
	uint8_t of[256];
};

void yard_table_make(struct yard_table *table);

/* The three bytes of the code of 256 bytes: a look into the table for each byte. */
void yard_by_table(const struct yard_table *table, const uint8_t *half, uint8_t *code);

/* The same: the half is folded onto itself, eight bytes at a time, until eight are left. */
void yard_by_words(const struct yard_table *table, const uint8_t *half, uint8_t *code);

#endif
