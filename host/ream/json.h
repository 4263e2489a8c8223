/*
 * Writes JSON, a value to a line. Objects and lists are opened and ended; a value within an object has a name,
 * one within a list has NULL for it.
 */
#ifndef JSON_H
#define JSON_H

#include <stdbool.h>
#include <stdint.h>
#include <stdio.h>

enum { MOST_DEPTH = 8 };

struct json {
	FILE *stream;
	unsigned depth;			/* of the objects and lists that are open */
	char ending[MOST_DEPTH];	/* what ends each of them */
	bool first;			/* nothing stands in the innermost yet */
};

/* Opens the outermost object. */
struct json json_begin(FILE *stream);

void json_object(struct json *json, const char *name);
void json_list(struct json *json, const char *name);

/* Ends the innermost object or list that is open; after the outermost nothing more is written. */
void json_end(struct json *json);

void json_number(struct json *json, const char *name, uint64_t number);
void json_truth(struct json *json, const char *name, bool truth);
void json_null(struct json *json, const char *name);

/* A text of any bytes. Bytes that are no UTF-8 become the replacement character; NULL becomes null. */
void json_text(struct json *json, const char *name, const char *text);

#endif
