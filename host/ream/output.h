/*
 * Output files. Each is written under another name beside it and gets its own when all are whole, so that it is
 * never there in part; a signal that ends the tool leaves none.
 */
#ifndef OUTPUT_H
#define OUTPUT_H

#include <stdbool.h>
#include <stdint.h>
#include <stdio.h>

#include "input.h"
#include "json.h"

/* A file to be written. */
struct output {
	const char *what;	/* it is, in a word */
	const char *path;	/* NULL where it is not wanted */
	bool (*fill)(FILE *stream, const void *from);	/* writes it; false, with a complaint, on failure */
	const void *from;
};

enum { MOST_OUTPUTS = 12 };

struct outputs {
	struct output output[MOST_OUTPUTS];
	unsigned count;
	char *temporary[MOST_OUTPUTS];	/* the names that they have until they are whole, or NULL */
	FILE *stream[MOST_OUTPUTS];
};

/* Adds one, if its path is not NULL. */
void outputs_add(struct outputs *outputs, struct output output);

/*
 * Judges the paths, and makes the files under their other names. None may be a file that was read or another of
 * these, under any spelling, and one that is there already is replaced only by force.
 */
bool outputs_begin(struct outputs *outputs, const struct file_id *read, unsigned reads, bool force);

/* Writes all of them, or none. */
bool outputs_finish(struct outputs *outputs);

/* Removes what was begun. */
void outputs_drop(struct outputs *outputs);

/* Tells what was written. */
void outputs_print(const struct outputs *outputs);
void outputs_write(struct json *json, const struct outputs *outputs);

/* Has what is written so far on its way to the disk, so that the end does not wait for all of it. */
void output_sync(FILE *stream);

/* Puts bytes at an offset of a file that is being written; `path` is what it will be called. */
bool output_put(FILE *stream, const char *path, uint64_t offset, const uint8_t *bytes, size_t len);

#endif
