/* The pages that a plan writes, as files in a folder. */
#define _POSIX_C_SOURCE 200809L

#include "pages.h"

#include <dirent.h>
#include <errno.h>
#include <inttypes.h>
#include <stdlib.h>
#include <string.h>
#include <sys/stat.h>

#include "temporary.h"
#include "tool.h"

static const char start[] = "step-";

bool pages_has(const struct plan *plan, unsigned step)
{
	return plan_step(plan, step).kind != REAM_ERASE;
}

void pages_name(const struct plan *plan, unsigned step, char name[PAGE_NAME_LEN])
{
	const struct ream_step told = plan_step(plan, step);

	if (told.kind == REAM_ZERO)
		snprintf(name, PAGE_NAME_LEN, "%s%02u-block-%u-zero.bin", start, step, told.block);
	else
		snprintf(name, PAGE_NAME_LEN, "%s%02u-block-%u-page-%u.bin", start, step, told.block, told.page);
}

/* The page of a zero step. */
static void zero_page(uint8_t page[PAGE_BYTES])
{
	memset(page, 0xFF, PAGE_DATA);
	memset(page + PAGE_DATA, 0, PAGE_OOB);
}

/* Writes a page. For struct output: from a struct page_file. */
static bool fill(FILE *stream, const void *from)
{
	const struct page_file *file = from;
	uint8_t page[PAGE_BYTES];

	if (plan_step(file->plan, file->step).kind == REAM_ZERO)
		zero_page(page);
	else
		plan_page(file->plan, file->step, page);
	fwrite(page, 1, sizeof(page), stream);
	return true;
}

/* ---- the folder */

/* Is this the name of a page of this plan? */
static bool is_of_plan(const struct plan *plan, const char *name)
{
	for (unsigned i = 0; i < plan->count; i++) {
		char own[PAGE_NAME_LEN];

		pages_name(plan, i, own);
		if (pages_has(plan, i) && strcmp(name, own) == 0)
			return true;
	}
	return false;
}

/* Does the folder hold no page of another plan? */
static bool holds_no_other(const char *folder, const struct plan *plan)
{
	DIR *entries = opendir(folder);
	const struct dirent *entry;
	bool none = true;

	if (!entries) {
		complain("%s: cannot be read: %s", folder, strerror(errno));
		return false;
	}
	while (none && (entry = readdir(entries)) != NULL) {
		none = strncmp(entry->d_name, start, strlen(start)) != 0 || is_of_plan(plan, entry->d_name);
		if (!none)
			complain("%s/%s: is no page of this plan; expected a folder without others", folder,
				 entry->d_name);
	}
	closedir(entries);
	return none;
}

static bool make_folder(struct pages *pages, const struct plan *plan)
{
	struct stat found;

	pages->made = false;
	if (stat(pages->folder, &found) == 0) {
		if (S_ISDIR(found.st_mode))
			return holds_no_other(pages->folder, plan);
		complain("%s: is there and is no folder", pages->folder);
		return false;
	}
	pages->made = temporary_folder(pages->folder);
	if (!pages->made)
		complain("%s: cannot be made: %s", pages->folder, strerror(errno));
	return pages->made;
}

/* ---- the files */

/* Adds the file of a step. */
static bool add(struct pages *pages, const struct plan *plan, unsigned step, struct outputs *outputs)
{
	struct page_file *file = &pages->file[pages->count];
	char name[PAGE_NAME_LEN];

	pages_name(plan, step, name);
	file->plan = plan;
	file->step = step;
	file->path = malloc(strlen(pages->folder) + 1 + sizeof(name));
	if (!file->path) {
		complain("%s: there is no memory for its files' names", pages->folder);
		return false;
	}
	sprintf(file->path, "%s/%s", pages->folder, name);
	pages->count++;
	outputs_add(outputs, (struct output){ "page", file->path, fill, file });
	return true;
}

bool pages_begin(struct pages *pages, const char *folder, const struct plan *plan, struct outputs *outputs)
{
	bool begun;

	pages->folder = plan->count > 0 ? folder : NULL;
	pages->count = 0;
	pages->made = false;
	if (!pages->folder)
		return true;
	begun = make_folder(pages, plan);
	for (unsigned i = 0; i < plan->count && begun; i++)
		if (pages_has(plan, i))
			begun = add(pages, plan, i, outputs);
	if (!begun)
		pages_end(pages, false);
	return begun;
}

void pages_end(struct pages *pages, bool written)
{
	if (pages->made && written)
		temporary_keep_folder(pages->folder);
	else if (pages->made)
		temporary_remove(pages->folder);
	pages->made = false;
	for (unsigned i = 0; i < pages->count; i++)
		free(pages->file[i].path);
	pages->count = 0;
}
