/*
 * The steps of a plan, as a table and as JSON. A step's address is where its block or page starts on the chip,
 * counted in bytes of data alone, as nanddump, flash_erase and nandwrite count.
 */
#ifndef STEPS_H
#define STEPS_H

#include <stdbool.h>
#include <stdint.h>

#include "json.h"
#include "plan.h"

/* Prints the plan of a command; with the names of the pages' files, if these are written. */
void steps_print(const char *command, const struct plan *plan, uint64_t pages_per_block, bool names);

/* Writes version and steps. */
void steps_write(struct json *json, const struct plan *plan, uint64_t pages_per_block, bool names);

#endif
