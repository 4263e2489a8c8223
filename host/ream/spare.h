/* A spare of the small chip, read by the library, and told in words. */
#ifndef SPARE_H
#define SPARE_H

#include <stdbool.h>
#include <stdint.h>

#include "json.h"
#include "reamsickle.h"

/* What a spare shows: the tag of one that is read, in the header's order, or why it is refused. */
enum spare_kind {
	SPARE_FREE,
	SPARE_LOG_COPYING,
	SPARE_LOG,
	SPARE_DATA_COPYING,
	SPARE_DATA,
	SPARE_BOOT_COPYING,
	SPARE_BOOT,
	SPARE_FACTORY,
	SPARE_LATE,
	SPARE_NO_TAG,
	SPARE_ERASED,		/* all FF */
	SPARE_NOT_OURS,		/* another magic, in a word that needed no repair */
	SPARE_NOT_OURS_REPAIRED,	/* another magic, in a word that was repaired */
	SPARE_KINDS,
};

struct spare {
	enum spare_kind kind;
	uint8_t tag_byte;	/* as stored */
	struct ream_fields fields;	/* all 0 of one that is refused */
};

/* The room for the words. */
enum { SPARE_LEN = 48 };

/* Reads 16 bytes. */
struct spare spare_read(const uint8_t bytes[REAM_SMALL_SPARE_SIZE]);

/* The magic in 16 bytes after repair, 56 hex in those that are ours. */
unsigned spare_magic(const uint8_t bytes[REAM_SMALL_SPARE_SIZE]);

/* A kind in a word or two, and that of a tag. */
const char *spare_word(enum spare_kind kind);
const char *spare_tag(uint8_t tag);

/* Has the path of a page with this tag a boot number and a generation? */
bool spare_boots(uint8_t tag);

/* Does it carry this boot number? */
bool spare_carries(const struct spare *spare, uint32_t number);

/* A spare in words: "free", "boot 3, generation 2", "bad (late)", "unknown tag 55". */
void spare_words(const struct spare *spare, char words[SPARE_LEN]);

/* Writes the path, and boot number and generation if it has them. */
void spare_write_path(struct json *json, const struct ream_fields *fields);

#endif
