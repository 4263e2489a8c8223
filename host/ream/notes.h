/* Sentences that a command has to say besides its answer. */
#ifndef NOTES_H
#define NOTES_H

#include <stdio.h>

#include "json.h"

enum { MOST_NOTES = 12, NOTE_LEN = 512 };

struct notes {
	unsigned count;
	char text[MOST_NOTES][NOTE_LEN];
};

/* Adds one. Where there is no room it is left out. */
void notes_add(struct notes *notes, const char *format, ...);

/* Prints each on the standard output, after a word, in lines of at most 80 columns. */
void notes_print(const struct notes *notes, const char *word);

/* Says each on the standard error, in a line after "ream: warning: ". */
void notes_warn(const struct notes *notes);

void notes_write(struct json *json, const char *name, const struct notes *notes);

#endif
