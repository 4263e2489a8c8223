/* The marks that an update is asked for, and what becomes of the blocks. */
#ifndef MARKS_H
#define MARKS_H

#include <stdbool.h>
#include <stdint.h>

#include "args.h"
#include "json.h"

/* Wants the listed blocks late and all others good, so that they stay as they are. */
bool marks_want(const struct texts *lists, uint64_t n, uint8_t *wanted);

/* Tells, block by block, which of the wanted blocks change and which keep the entry that they have in the old
 * bitmap. */
void marks_print(const uint8_t *old, const uint8_t *wanted, uint64_t n);
void marks_write(struct json *json, const uint8_t *old, const uint8_t *wanted, uint64_t n);

#endif
