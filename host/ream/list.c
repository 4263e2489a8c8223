/* Lists in an option's value. */
#include "list.h"

#include <stddef.h>
#include <string.h>

#include "tool.h"

struct list list_begin(const char *option, const char *text, const char *expected, char between)
{
	const struct list list = { option, text, expected, between, text };

	return list;
}

/* Where is an item missing? */
static const char *missing(const struct list *list)
{
	if (list->rest == list->text)
		return "nothing stands before the first comma";
	if (*list->rest == '\0')
		return "nothing stands after the last comma";
	return "nothing stands between two commas";
}

/* Takes the numbers of an item. */
static bool take_numbers(const struct list *list, struct item *item)
{
	const char *end = item->text + item->len;

	item->first = item->second = args_numeral(item->text);
	item->two = item->first.end && item->first.end < end && *item->first.end == list->between;
	if (item->two)
		item->second = args_numeral(item->first.end + 1);
	return item->second.end == end;
}

bool list_next(struct list *list, struct item *item)
{
	if (!list->rest)
		return false;
	item->text = list->rest;
	item->len = (int)strcspn(list->rest, ",");
	if (item->len == 0) {
		complain("%s %s: %s; expected %s", list->option, list->text, missing(list), list->expected);
		return false;
	}
	if (!take_numbers(list, item)) {
		complain("%s %s: cannot take \"%.*s\"; expected %s", list->option, list->text, item->len,
			 item->text, list->expected);
		return false;
	}
	list->rest = item->text[item->len] == ',' ? item->text + item->len + 1 : NULL;
	return true;
}
