/*
 * A file of the factory's marks alone, in the place of a dump of the chip: 2 bytes a block, that of its first page and
 * that of its second, block 0 first.
 */
#ifndef MARKFILE_H
#define MARKFILE_H

#include <stdbool.h>
#include <stdint.h>

#include "dump.h"
#include "factory.h"
#include "input.h"
#include "json.h"

struct markfile {
	struct file_id id;
	uint64_t size;		/* in bytes */
	struct chip chip;	/* without pages a block */
	bool blocks_told, region_told;
};

/* Reads a file of marks of a chip of which these numbers are told. False, with a complaint, where that fails. */
bool markfile_read(struct markfile *file, struct factory *factory, const char *path, const struct chip *told);

/* Tells the chip and the file, and what of it is assumed. */
void markfile_print(const struct markfile *file);
void markfile_write(struct json *json, const struct markfile *file);

#endif
