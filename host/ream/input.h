/*
 * Input: regular files, and pipes, of which all bytes are kept in a file without a name until the input is
 * closed. The path "-" is the standard input.
 */
#ifndef INPUT_H
#define INPUT_H

#include <stdbool.h>
#include <stdint.h>
#include <stdio.h>
#include <sys/types.h>

/* Which file it is, whatever the path. */
struct file_id {
	const char *name;	/* to stand in a complaint */
	dev_t device;
	ino_t number;
};

struct input {
	struct file_id id;
	FILE *stream;
	uint64_t size;
};

/* Opens it. False, with a complaint, where that fails. */
bool input_open(struct input *input, const char *path);

void input_close(struct input *input);

/* Reads len bytes at an offset. */
bool input_read(const struct input *input, uint64_t offset, uint8_t *bytes, size_t len);

/* Reads a file that has to have exactly len bytes; `expected` says in words which. */
bool input_read_whole(const char *path, uint8_t *bytes, size_t len, const char *expected, struct file_id *id);

#endif
