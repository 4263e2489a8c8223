/* Writes JSON. */
#include "json.h"

#include <inttypes.h>
#include <string.h>

/* ---- texts */

/* The length of a character of UTF-8, 1 to 4, by its first byte; 0 where none starts so. */
static unsigned length_by(unsigned char lead)
{
	if (lead < 0x80)
		return 1;
	if (lead < 0xC2 || lead > 0xF4)
		return 0;
	return lead < 0xE0 ? 2 : lead < 0xF0 ? 3 : 4;
}

/* The length of the character that bytes start with; 0 where they start with none. */
static unsigned character(const unsigned char *bytes)
{
	const unsigned char lead = bytes[0];
	const unsigned len = length_by(lead);

	for (unsigned i = 1; i < len; i++)
		if (bytes[i] < 0x80 || bytes[i] > 0xBF)
			return 0;
	if ((lead == 0xE0 && bytes[1] < 0xA0) || (lead == 0xED && bytes[1] > 0x9F) ||
	    (lead == 0xF0 && bytes[1] < 0x90) || (lead == 0xF4 && bytes[1] > 0x8F))
		return 0;
	return len;
}

static void put_text(FILE *stream, const char *text)
{
	const unsigned char *bytes = (const unsigned char *)text;

	fputc('"', stream);
	while (*bytes) {
		const unsigned len = character(bytes);

		if (len == 0)
			fputs("\\ufffd", stream);
		else if (*bytes == '"' || *bytes == '\\')
			fprintf(stream, "\\%c", *bytes);
		else if (*bytes < 0x20 || *bytes == 0x7F)
			fprintf(stream, "\\u%04x", *bytes);
		else
			fwrite(bytes, 1, len, stream);
		bytes += len == 0 ? 1 : len;
	}
	fputc('"', stream);
}

/* ---- values */

/* Goes to the line of the next value, and writes its name. */
static void begin_value(struct json *json, const char *name)
{
	fputs(json->first ? "\n" : ",\n", json->stream);
	for (unsigned i = 0; i < json->depth; i++)
		fputs("  ", json->stream);
	json->first = false;
	if (!name)
		return;
	put_text(json->stream, name);
	fputs(": ", json->stream);
}

static void open_value(struct json *json, char start, char ending)
{
	fputc(start, json->stream);
	json->ending[json->depth++] = ending;
	json->first = true;
}

struct json json_begin(FILE *stream)
{
	struct json json = { .stream = stream };

	open_value(&json, '{', '}');
	return json;
}

void json_object(struct json *json, const char *name)
{
	begin_value(json, name);
	open_value(json, '{', '}');
}

void json_list(struct json *json, const char *name)
{
	begin_value(json, name);
	open_value(json, '[', ']');
}

void json_end(struct json *json)
{
	json->depth--;
	if (!json->first) {
		fputc('\n', json->stream);
		for (unsigned i = 0; i < json->depth; i++)
			fputs("  ", json->stream);
	}
	fputc(json->ending[json->depth], json->stream);
	json->first = false;
	if (json->depth == 0)
		fputc('\n', json->stream);
}

void json_number(struct json *json, const char *name, uint64_t number)
{
	begin_value(json, name);
	fprintf(json->stream, "%" PRIu64, number);
}

void json_truth(struct json *json, const char *name, bool truth)
{
	begin_value(json, name);
	fputs(truth ? "true" : "false", json->stream);
}

void json_null(struct json *json, const char *name)
{
	begin_value(json, name);
	fputs("null", json->stream);
}

void json_text(struct json *json, const char *name, const char *text)
{
	if (!text) {
		json_null(json, name);
		return;
	}
	begin_value(json, name);
	put_text(json->stream, text);
}
