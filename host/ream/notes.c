/* Sentences that a command has to say besides its answer. */
#include "notes.h"

#include <stdarg.h>

#include "tool.h"

void notes_add(struct notes *notes, const char *format, ...)
{
	va_list arguments;

	if (notes->count == MOST_NOTES)
		return;
	va_start(arguments, format);
	vsnprintf(notes->text[notes->count++], NOTE_LEN, format, arguments);
	va_end(arguments);
}

void notes_print(const struct notes *notes, const char *word)
{
	for (unsigned i = 0; i < notes->count; i++)
		print_broken(word, "%s", notes->text[i]);
}

void notes_warn(const struct notes *notes)
{
	for (unsigned i = 0; i < notes->count; i++)
		complain("warning: %s", notes->text[i]);
}

void notes_write(struct json *json, const char *name, const struct notes *notes)
{
	json_list(json, name);
	for (unsigned i = 0; i < notes->count; i++)
		json_text(json, NULL, notes->text[i]);
	json_end(json);
}
