/* How the pages of a dump that count were read: by a status file, and by pages that are named unreadable. */
#ifndef STATUS_H
#define STATUS_H

#include <stdbool.h>
#include <stdio.h>

#include "args.h"
#include "input.h"
#include "json.h"
#include "region.h"

/* Takes the status file of a region, and tells which file it is. */
bool status_read(struct region *region, const char *path, struct file_id *id);

/* Takes the pages in lists as unreadable, besides those that are. */
bool status_take_unreadable(struct region *region, const struct texts *lists);

/* How many pages are unreadable; and which. */
unsigned status_count(const struct region *region);
void status_write(struct json *json, const struct region *region);

/* Writes a status file. For struct output: from a struct region. */
bool status_fill(FILE *stream, const void *region);

#endif
