/* ream page: a page of the small chip in words, with its repairs, or why it is refused. */
#include <inttypes.h>
#include <stdbool.h>
#include <stdio.h>
#include <string.h>

#include "args.h"
#include "input.h"
#include "json.h"
#include "output.h"
#include "reamsickle.h"
#include "spare.h"
#include "tool.h"

static const char help[] =
	"usage: ream page [--repaired OUT] [--force] [--json] FILE\n"
	"\n"
	"Reads a page of the small chip: status, tag, path, erase count, and what was\n"
	"repaired. A page that cannot be read is refused, with exit status 1.\n"
	"\n"
	"  --repaired OUT   writes the page as it was meant: its data repaired, and the\n"
	"                   spare that belongs to it\n"
	"  --force          replaces OUT if it is there already\n"
	"  --json           answers in JSON\n"
	"  FILE             528 bytes, 512 of data and 16 of spare; - is the standard\n"
	"                   input\n";

enum { DATA = REAM_SMALL_DATA_SIZE, SPARE = REAM_SMALL_SPARE_SIZE, PAGE = DATA + SPARE };

/* A page as it was found, and as it was meant. */
struct reading {
	struct file_id file;
	uint8_t found[PAGE];
	uint8_t meant[PAGE];
	uint64_t answer;
	bool meant_known;	/* not of a count that can be read but not written */
	struct ream_fields fields;
	struct outputs outputs;
};

/* ---- what was repaired */

/* Spare bytes, with the bits that count, in which a repaired word or code differs from the one found. */
struct part {
	const char *name;
	unsigned bytes;
	uint8_t place[4];
	uint8_t last;		/* the bits that count of the last byte */
	bool half;		/* with it goes half of the data, from this byte on */
	unsigned data;
};

static const struct part parts[] = {
	{ "tag", 1, { 4 }, 0xFF, false, 0 },
	{ "path word", 4, { 0, 1, 2, 3 }, 0xDF, false, 0 },
	{ "count word", 4, { 6, 7, 11, 12 }, 0xDF, false, 0 },
	{ "first half", 3, { 13, 14, 15 }, 0xFC, true, 0 },
	{ "second half", 3, { 8, 9, 10 }, 0xFC, true, REAM_HALF_SIZE },
};

static bool was_repaired(const struct reading *reading, const struct part *part)
{
	for (unsigned i = 0; i < part->bytes; i++) {
		const unsigned at = DATA + part->place[i];
		const unsigned counting = i + 1 == part->bytes ? part->last : 0xFF;

		if (((reading->found[at] ^ reading->meant[at]) & counting) != 0)
			return true;
	}
	return part->half &&
	       memcmp(reading->found + part->data, reading->meant + part->data, REAM_HALF_SIZE) != 0;
}

static void print_repairs(const struct reading *reading)
{
	const char *before = " (";

	printf("repairs: %u", reading->fields.repairs);
	for (unsigned i = 0; i < sizeof(parts) / sizeof(parts[0]) && reading->meant_known; i++) {
		if (!was_repaired(reading, &parts[i]))
			continue;
		printf("%s%s", before, parts[i].name);
		before = ", ";
	}
	printf("%s\n", before[0] == ',' ? ")" : "");
}

static void write_repairs(struct json *json, const struct reading *reading)
{
	json_number(json, "repairs", reading->fields.repairs);
	json_list(json, "repaired");
	for (unsigned i = 0; i < sizeof(parts) / sizeof(parts[0]) && reading->meant_known; i++)
		if (was_repaired(reading, &parts[i]))
			json_text(json, NULL, parts[i].name);
	json_end(json);
}

/* ---- fields */

static void print_fields(const struct reading *reading)
{
	const struct ream_fields *fields = &reading->fields;

	printf("status: %02X, good\n", fields->status);
	printf("tag: %02X, %s\n", fields->tag, spare_tag(fields->tag));
	if (spare_boots(fields->tag))
		printf("path: %" PRIu32 ", boot number %" PRIu32 ", generation %u\n", fields->path,
		       ream_boot_number(fields->path), ream_boot_generation(fields->path));
	else
		printf("path: %" PRIu32 "\n", fields->path);
	printf("count: %" PRIu32 " erase%s\n", fields->count, plural(fields->count));
	print_repairs(reading);
}

static void write_fields(struct json *json, const struct reading *reading)
{
	const struct ream_fields *fields = &reading->fields;

	json_number(json, "status", fields->status);
	json_number(json, "tag", fields->tag);
	json_text(json, "tag_name", spare_tag(fields->tag));
	spare_write_path(json, fields);
	json_number(json, "count", fields->count);
	write_repairs(json, reading);
	outputs_write(json, &reading->outputs);
}

/* ---- refusals */

enum { DETAIL_LEN = 64 };

/* Of a page with an erased spare: is its data erased too? */
static void erased_detail(const uint8_t *data, char words[DETAIL_LEN])
{
	unsigned written = 0;

	for (unsigned i = 0; i < DATA; i++)
		written += data[i] != 0xFF;
	if (written == 0)
		snprintf(words, DETAIL_LEN, "the page is erased, all FF");
	else
		snprintf(words, DETAIL_LEN, "but %u data byte%s not FF", written, written == 1 ? " is" : "s are");
}

/* What a refusal is about, in words. */
static void refusal_detail(const struct reading *reading, char words[DETAIL_LEN])
{
	const uint8_t *spare = reading->found + DATA;
	const unsigned detail = ream_detail(reading->answer);

	words[0] = '\0';
	switch (ream_refusal(reading->answer)) {
	case REAM_BAD_BLOCK:
		snprintf(words, DETAIL_LEN, "status byte %02X: %s", spare[5],
			 detail == REAM_FACTORY ? "marked by the factory" : "went bad in use (late)");
		break;
	case REAM_TAG:
		snprintf(words, DETAIL_LEN, "tag byte %02X", spare[4]);
		break;
	case REAM_ERASED:
		erased_detail(reading->found, words);
		break;
	case REAM_NOT_OURS:
		snprintf(words, DETAIL_LEN, "magic %02X in spare byte 6", spare[6]);
		break;
	case REAM_NOT_OURS_REPAIRED:
		snprintf(words, DETAIL_LEN, "magic %02X after the repair, %02X in spare byte 6", spare_magic(spare),
			 spare[6]);
		break;
	case REAM_UNREPAIRABLE:
		snprintf(words, DETAIL_LEN, "%s", detail == REAM_FIRST_HALF ? "the first half, bytes 0-255"
			 : "the second half, bytes 256-511");
		break;
	default:
		break;
	}
}

/* Tells why the page is refused. */
static enum exit_status tell_refusal(const struct reading *reading, bool as_json)
{
	char detail[DETAIL_LEN];
	struct json json;

	refusal_detail(reading, detail);
	if (!as_json) {
		print_refusal("page", ream_refusal(reading->answer));
		printf("  %s\n", detail);
		return EXIT_REFUSED;
	}
	json = json_begin(stdout);
	json_text(&json, "command", "page");
	write_refusal(&json, ream_refusal(reading->answer));
	json_text(&json, "detail", detail);
	json_end(&json);
	return EXIT_REFUSED;
}

/* ---- the command */

/* Reads the page as it was meant: its data repaired by the library, and its spare written anew. */
static void read_page(struct reading *reading)
{
	uint8_t *data = reading->meant, *spare = reading->meant + DATA;
	uint8_t fields[REAM_FIELDS_SIZE];
	uint64_t written;

	memcpy(reading->meant, reading->found, PAGE);
	reading->answer = ream_page_read(data, DATA, spare, SPARE, fields, sizeof(fields));
	if (ream_refusal(reading->answer) != REAM_OK)
		return;
	reading->fields = ream_fields_get(fields);
	written = ream_spare_write(data, DATA, reading->fields.tag, reading->fields.path, reading->fields.count,
				   spare, SPARE);
	reading->meant_known = ream_refusal(written) == REAM_OK;
}

static bool fill_page(FILE *stream, const void *from)
{
	fwrite(from, 1, PAGE, stream);
	return true;
}

/* Tells the page's fields, and what was written; `refusal` is that of the page to write. */
static void tell(const struct reading *reading, unsigned refusal, bool as_json)
{
	struct json json;

	if (as_json) {
		json = json_begin(stdout);
		json_text(&json, "command", "page");
		write_refusal(&json, refusal);
		write_fields(&json, reading);
		json_end(&json);
		return;
	}
	print_fields(reading);
	outputs_print(&reading->outputs);
	if (refusal == REAM_OK)
		return;
	printf("not written: a count of %" PRIu32 " can be read, but at most %d is written\n",
	       reading->fields.count, REAM_COUNT_MAX);
	print_refusal("repaired page", refusal);
}

/* Writes the page as it was meant, if that is asked for, and tells it. */
static enum exit_status write_and_tell(struct reading *reading, const char *repaired, bool force, bool as_json)
{
	if (repaired && !reading->meant_known) {
		tell(reading, REAM_RANGE, as_json);
		return EXIT_REFUSED;
	}
	outputs_add(&reading->outputs, (struct output){ "page", repaired, fill_page, reading->meant });
	if (!outputs_begin(&reading->outputs, &reading->file, 1, force) || !outputs_finish(&reading->outputs))
		return EXIT_WRONG;
	tell(reading, REAM_OK, as_json);
	return EXIT_DONE;
}

enum exit_status page_command(int argc, char **argv)
{
	struct syntax syntax = { .command = "page", .help = help, .file = "FILE" };
	const char *file, *repaired = NULL;
	struct reading reading;
	bool force = false, json = false;
	enum parsed parsed;

	args_add(&syntax, (struct argument){ .name = "repaired", .text = &repaired });
	args_add(&syntax, (struct argument){ .name = "force", .flag = &force });
	args_add(&syntax, (struct argument){ .name = "json", .flag = &json });
	parsed = args_parse(&syntax, argc, argv, &file);
	if (parsed != PARSED)
		return parsed == PARSED_HELP ? EXIT_DONE : EXIT_WRONG;
	reading.outputs.count = 0;
	if (!input_read_whole(file, reading.found, PAGE, "512 of data and 16 of spare", &reading.file))
		return EXIT_WRONG;
	read_page(&reading);
	if (ream_refusal(reading.answer) != REAM_OK)
		return tell_refusal(&reading, json);
	return write_and_tell(&reading, repaired, force, json);
}
