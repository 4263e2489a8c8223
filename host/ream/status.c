/* How the pages of a dump that count were read. */
#include "status.h"

#include <inttypes.h>

#include "list.h"
#include "reamsickle.h"
#include "tool.h"

bool status_read(struct region *region, const char *path, struct file_id *id)
{
	const size_t len = region_status_len(region);
	char expected[80];

	snprintf(expected, sizeof(expected), "one for each of the first P pages of the last %s blocks",
		 size_word(region->size));
	if (!input_read_whole(path, region->status, len, expected, id))
		return false;
	for (size_t i = 0; i < len; i++) {
		if (region->status[i] == REAM_READ_WELL || region->status[i] == REAM_UNREADABLE)
			continue;
		complain("%s: offset %zu has %02X, expected 00 (read well) or 01 (unreadable) (%s)", id->name, i,
			 region->status[i], REFUSED_RANGE);
		return false;
	}
	return true;
}

/* Takes one page of a list as unreadable. */
static bool mark_unreadable(struct region *region, const struct list *list, const struct item *item)
{
	const uint64_t first = region_first(region);
	unsigned block;

	if (!item->two) {
		complain("%s %s: %.*s has no page; expected %s", list->option, list->text, item->len, item->text,
			 list->expected);
		return false;
	}
	if (item->first.outside || item->first.value < first || item->first.value >= region->n) {
		complain("%s %s: %.*s is out of range, expected one of the last %s blocks, %" PRIu64
			 " to %" PRIu64 " (%s)",
			 list->option, list->text, item->len, item->text, size_word(region->size), first,
			 region->n - 1, REFUSED_RANGE);
		return false;
	}
	if (item->second.outside || item->second.value >= region->pages) {
		complain("%s %s: %.*s is out of range, expected a page from 0 to %u, as only these count (%s)",
			 list->option, list->text, item->len, item->text, region->pages - 1, REFUSED_RANGE);
		return false;
	}
	block = (unsigned)(item->first.value - first);
	*region_status(region, block, (unsigned)item->second.value) = REAM_UNREADABLE;
	return true;
}

bool status_take_unreadable(struct region *region, const struct texts *lists)
{
	for (unsigned i = 0; i < lists->count; i++) {
		struct list list = list_begin("--unreadable", lists->text[i],
					      "BLOCK:PAGE with commas, as in 1022:0,1023:0", ':');
		struct item item;

		while (list_next(&list, &item))
			if (!mark_unreadable(region, &list, &item))
				return false;
		if (list.rest)
			return false;
	}
	return true;
}

unsigned status_count(const struct region *region)
{
	unsigned count = 0;

	for (size_t i = 0; i < region_status_len(region); i++)
		count += region->status[i] == REAM_UNREADABLE;
	return count;
}

void status_write(struct json *json, const struct region *region)
{
	json_list(json, "unreadable");
	for (unsigned block = 0; block < region->size; block++) {
		for (unsigned page = 0; page < region->pages; page++) {
			if (region_reads_well(region, block, page))
				continue;
			json_object(json, NULL);
			json_number(json, "block", region_first(region) + block);
			json_number(json, "page", page);
			json_end(json);
		}
	}
	json_end(json);
}

bool status_fill(FILE *stream, const void *from)
{
	const struct region *region = from;

	fwrite(region->status, 1, region_status_len(region), stream);
	return true;
}
