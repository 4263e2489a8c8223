/* Trials of the lengths told to an entry, for the entries of both chips. */
#ifndef LENGTHS_H
#define LENGTHS_H

#include "calls.h"

/* Sets up a call of an entry with these inputs, every length as named. */
typedef void set_up_call(struct test *test, enum entry_index index, const void *inputs);

/* Calls an entry with wrong lengths of each buffer alone and of all together. Refusal 1 must come exactly
 * where a length is not the one named. */
void try_lengths(struct test *test, enum entry_index index, set_up_call *set_up, const void *inputs);

#endif
