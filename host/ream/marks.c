/* The marks that an update is asked for. */
#include "marks.h"

#include <inttypes.h>
#include <stdio.h>
#include <string.h>

#include "list.h"
#include "reamsickle.h"
#include "table.h"
#include "tool.h"

static const char option[] = "update: --mark-late";

static bool is_block(const struct numeral *numeral, uint64_t n)
{
	return !numeral->outside && numeral->value < n;
}

/* Takes one block or range of a list. */
static bool want_item(const struct list *list, const struct item *item, uint64_t n, uint8_t *wanted)
{
	if (!is_block(&item->first, n) || !is_block(&item->second, n)) {
		complain("%s %s: %.*s is out of range, expected blocks from 0 to %" PRIu64 " (%s)", list->option,
			 list->text, item->len, item->text, n - 1, REFUSED_RANGE);
		return false;
	}
	if (item->first.value > item->second.value) {
		complain("%s %s: %.*s runs backwards; expected the lower block first", list->option, list->text,
			 item->len, item->text);
		return false;
	}
	for (uint64_t block = item->first.value; block <= item->second.value; block++)
		ream_entry_set(wanted, block, REAM_ENTRY_LATE);
	return true;
}

bool marks_want(const struct texts *lists, uint64_t n, uint8_t *wanted)
{
	memset(wanted, 0xFF, ream_bitmap_size(n));
	for (unsigned i = 0; i < lists->count; i++) {
		struct list list = list_begin(option, lists->text[i],
					      "blocks or ranges with commas, as in 7,12-15", '-');
		struct item item;

		while (list_next(&list, &item))
			if (!want_item(&list, &item, n, wanted))
				return false;
		if (list.rest)
			return false;
	}
	return true;
}

/* ---- what becomes of the blocks */

static bool is_wanted(const uint8_t *wanted, uint64_t block)
{
	return ream_entry_get(wanted, block) != REAM_ENTRY_GOOD;
}

void marks_print(const uint8_t *old, const uint8_t *wanted, uint64_t n)
{
	for (uint64_t block = 0; block < n; block++) {
		const unsigned entry = ream_entry_get(old, block);

		if (!is_wanted(wanted, block))
			continue;
		if (entry == REAM_ENTRY_GOOD)
			printf("  block %" PRIu64 ": %s -> %s\n", block, table_entry(entry),
			       table_entry(ream_entry_get(wanted, block)));
		else
			printf("  block %" PRIu64 ": stays %s\n", block, table_entry(entry));
	}
}

void marks_write(struct json *json, const uint8_t *old, const uint8_t *wanted, uint64_t n)
{
	json_list(json, "marks");
	for (uint64_t block = 0; block < n; block++) {
		const unsigned entry = ream_entry_get(old, block);

		if (!is_wanted(wanted, block))
			continue;
		json_object(json, NULL);
		json_number(json, "block", block);
		json_text(json, "from", table_entry(entry));
		json_text(json, "to",
			  table_entry(entry == REAM_ENTRY_GOOD ? ream_entry_get(wanted, block) : entry));
		json_end(json);
	}
	json_end(json);
}
