/*
 * Files that are not whole yet, under names of their own. A signal that ends the tool removes those that are
 * remembered; what the handler of such signals needs is all that the tool keeps for itself.
 */
#ifndef TEMPORARY_H
#define TEMPORARY_H

#include <stdbool.h>
#include <stdio.h>

enum { MOST_TEMPORARY = 16 };

/* Makes a file of another name beside a path, and remembers it. Gives the name, for the caller to free; NULL,
 * with errno set, where that fails. */
char *temporary_make(const char *path, FILE **stream);

/* Gives it the name of the path. */
bool temporary_keep(const char *name, const char *path);

/* Removes it, and forgets it. */
void temporary_remove(const char *name);

/* Makes a folder, to be removed again like a file as long as it is not kept. False, with errno set, where that
 * fails. */
bool temporary_folder(const char *path);
void temporary_keep_folder(const char *path);

/* A file without a name, which is gone when it is closed. NULL, with errno set, where that fails. `folder` is
 * where it stands. */
FILE *temporary_nameless(const char **folder);

/* From begin to end no signal ends the tool; one that comes waits. */
void temporary_begin_quiet(void);
void temporary_end_quiet(void);

#endif
