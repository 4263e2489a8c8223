/*
 * Does what stands in a dump contradict the numbers of blocks and pages that it is read with? The table's pages
 * tell by two things: behind the bitmap's end all bytes are FF, and a signature stands on none but the first P
 * pages of the region's blocks. Neither can tell of every wrong number.
 */
#ifndef GEOMETRY_H
#define GEOMETRY_H

#include "dump.h"
#include "notes.h"

/* Adds a warning for each contradiction. */
void geometry_doubt(const struct dump *dump, struct notes *warnings);

#endif
