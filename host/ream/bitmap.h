/* The bitmap of a chip's first pair of tables: from a file, or by the factory's marks that a dump of the whole chip
 * shows. */
#ifndef BITMAP_H
#define BITMAP_H

#include <stdbool.h>
#include <stdint.h>

#include "dump.h"
#include "notes.h"

/* Takes it from the file of this path, or where that is NULL by the marks; the chip block that was chosen for the
 * primary then counts as good, as its marks may be of a cut attempt, and what the marks of the region show is noted.
 * False, with a complaint, where that fails. The file is one more that was read. */
bool bitmap_take(uint8_t bitmap[MOST_BITMAP], const char *path, struct dump *dump, uint64_t chosen,
		 struct notes *notes);

#endif
