/* Marks that Linux leaves in the tables of a chip that it writes (docs/LINUX.md), as far as a dump shows them. */
#ifndef LINUX_H
#define LINUX_H

#include "notes.h"
#include "region.h"
#include "table.h"

/* Adds what the pages show, where the pair was refused with this refusal or read (REAM_OK). */
void linux_look_at_pages(const struct region *region, unsigned refusal, struct notes *notes);

/* Adds what a settled pair's entries show. */
void linux_look_at_entries(const struct settled *table, uint64_t n, struct notes *notes);

#endif
