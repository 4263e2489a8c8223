/* A spare of the small chip. */
#include "spare.h"

#include <inttypes.h>
#include <stdio.h>
#include <string.h>

/* ---- kinds */

static enum spare_kind kind_of_tag(uint8_t tag)
{
	switch (tag) {
	case REAM_TAG_FREE:
		return SPARE_FREE;
	case REAM_TAG_LOG_COPYING:
		return SPARE_LOG_COPYING;
	case REAM_TAG_LOG:
		return SPARE_LOG;
	case REAM_TAG_DATA_COPYING:
		return SPARE_DATA_COPYING;
	case REAM_TAG_DATA:
		return SPARE_DATA;
	case REAM_TAG_BOOT_COPYING:
		return SPARE_BOOT_COPYING;
	default:
		return SPARE_BOOT;
	}
}

static enum spare_kind kind_of_refusal(uint64_t answer)
{
	switch (ream_refusal(answer)) {
	case REAM_BAD_BLOCK:
		return ream_detail(answer) == REAM_FACTORY ? SPARE_FACTORY : SPARE_LATE;
	case REAM_TAG:
		return SPARE_NO_TAG;
	case REAM_ERASED:
		return SPARE_ERASED;
	case REAM_NOT_OURS:
		return SPARE_NOT_OURS;
	default:
		return SPARE_NOT_OURS_REPAIRED;
	}
}

struct spare spare_read(const uint8_t bytes[REAM_SMALL_SPARE_SIZE])
{
	uint8_t fields[REAM_FIELDS_SIZE] = { 0 };
	const uint64_t answer = ream_spare_read(bytes, REAM_SMALL_SPARE_SIZE, fields, sizeof(fields));
	struct spare spare;

	spare.fields = ream_fields_get(fields);
	spare.tag_byte = bytes[4];
	spare.kind = ream_refusal(answer) == REAM_OK ? kind_of_tag(spare.fields.tag) : kind_of_refusal(answer);
	return spare;
}

/* The word is read in the place of a path, of a spare that is ours. */
unsigned spare_magic(const uint8_t bytes[REAM_SMALL_SPARE_SIZE])
{
	static const uint8_t ours[REAM_SMALL_SPARE_SIZE] = {
		0x00, 0x00, 0x00, 0x20, 0xFF, 0xFF, 0x56, 0x00, 0xFF, 0xFF, 0xFF, 0x00, 0x62, 0xFF, 0xFF, 0xFF,
	};
	uint8_t spare[REAM_SMALL_SPARE_SIZE];

	memcpy(spare, ours, sizeof(spare));
	memcpy(spare, bytes + 6, 2);
	memcpy(spare + 2, bytes + 11, 2);
	return spare_read(spare).fields.path >> 18;
}

/* ---- words */

const char *spare_word(enum spare_kind kind)
{
	static const char *const words[SPARE_KINDS] = {
		[SPARE_FREE] = "free", [SPARE_LOG_COPYING] = "log-copying", [SPARE_LOG] = "log",
		[SPARE_DATA_COPYING] = "data-copying", [SPARE_DATA] = "data",
		[SPARE_BOOT_COPYING] = "boot-copying", [SPARE_BOOT] = "boot", [SPARE_FACTORY] = "bad (factory)",
		[SPARE_LATE] = "bad (late)", [SPARE_NO_TAG] = "unknown tag", [SPARE_ERASED] = "erased",
		[SPARE_NOT_OURS] = "not ours", [SPARE_NOT_OURS_REPAIRED] = "not ours (repaired)",
	};

	return words[kind];
}

const char *spare_tag(uint8_t tag)
{
	return spare_word(kind_of_tag(tag));
}

bool spare_boots(uint8_t tag)
{
	return tag == REAM_TAG_BOOT || tag == REAM_TAG_BOOT_COPYING;
}

bool spare_carries(const struct spare *spare, uint32_t number)
{
	return spare_boots(spare->fields.tag) && ream_boot_number(spare->fields.path) == number;
}

void spare_words(const struct spare *spare, char words[SPARE_LEN])
{
	const char *word = spare_word(spare->kind);
	const uint32_t path = spare->fields.path;

	if (spare_boots(spare->fields.tag))
		snprintf(words, SPARE_LEN, "%s %" PRIu32 ", generation %u", word, ream_boot_number(path),
			 ream_boot_generation(path));
	else if (spare->kind == SPARE_NO_TAG)
		snprintf(words, SPARE_LEN, "%s %02X", word, spare->tag_byte);
	else
		snprintf(words, SPARE_LEN, "%s", word);
}

void spare_write_path(struct json *json, const struct ream_fields *fields)
{
	json_number(json, "path", fields->path);
	if (!spare_boots(fields->tag))
		return;
	json_number(json, "boot_number", ream_boot_number(fields->path));
	json_number(json, "generation", ream_boot_generation(fields->path));
}
