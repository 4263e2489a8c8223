/* A plan, carried out on a copy of the dump that it was made for. */
#include "apply.h"

#include <errno.h>
#include <inttypes.h>
#include <stdio.h>
#include <string.h>

#include "progress.h"
#include "status.h"
#include "table.h"
#include "tool.h"

/* ---- options */

void apply_options(struct syntax *syntax, struct applying *applying)
{
	args_add(syntax, (struct argument){ .name = "apply", .text = &applying->out });
	args_add(syntax, (struct argument){ .name = "status-out", .text = &applying->status_out });
	args_add(syntax, (struct argument){ .name = "pages", .text = &applying->pages });
	args_add(syntax, (struct argument){ .name = "force", .flag = &applying->force });
}

bool apply_beside(const struct applying *applying, const char *command, const char *option, bool told)
{
	if (told && !applying->out)
		complain("%s: %s: expected --apply beside it", command, option);
	return !told || applying->out;
}

/* ---- the copy */

/* So much is copied at a time, and so much before it is sent to the disk, that what is told of the progress is
 * true. */
enum { CHUNK = 32 * PAGE_BYTES, SENT = 512 * CHUNK };

/* Copies the dump as it is. */
static bool copy_as_it_is(FILE *stream, const struct copy *copy)
{
	const struct input *from = &copy->dump->input;
	struct progress progress = progress_begin("copying", from->size, NULL);
	uint8_t bytes[CHUNK];
	bool copied = true;

	for (uint64_t done = 0; done < from->size && copied;) {
		const uint64_t rest = from->size - done;
		const size_t len = rest < sizeof(bytes) ? (size_t)rest : sizeof(bytes);

		copied = input_read(from, done, bytes, len) && output_put(stream, copy->path, done, bytes, len);
		done += len;
		if (done % SENT == 0)
			output_sync(stream);
		progress_at(&progress, done);
	}
	progress_end(&progress);
	return copied;
}

/* A copy that is being written. */
struct writing {
	FILE *stream;
	const struct copy *copy;
};

/* Puts bytes into a page, from one of its bytes on. */
static bool put(const struct writing *writing, unsigned block, unsigned page, size_t from, const uint8_t *bytes,
		size_t len)
{
	const struct copy *copy = writing->copy;

	return output_put(writing->stream, copy->path, dump_offset(copy->dump, block, page) + from, bytes, len);
}

/* Makes every page of a block blank. */
static bool erase(const struct writing *writing, unsigned block)
{
	uint8_t blank[PAGE_BYTES];
	bool done = true;

	memset(blank, 0xFF, sizeof(blank));
	for (unsigned page = 0; page < writing->copy->dump->pages_per_block && done; page++)
		done = put(writing, block, page, 0, blank, sizeof(blank));
	return done;
}

/* Makes the OOB of a block's first page 0. */
static bool zero(const struct writing *writing, unsigned block)
{
	static const uint8_t zeros[PAGE_OOB];

	return put(writing, block, 0, PAGE_DATA, zeros, sizeof(zeros));
}

/* Does a step on the copy. For plan_go_through(). */
static bool do_step(const struct plan *plan, unsigned i, void *to)
{
	const struct writing *writing = to;
	const struct ream_step step = plan_step(plan, i);
	const unsigned block = plan_block(plan, &step);
	uint8_t bytes[PAGE_BYTES];

	if (step.kind == REAM_ERASE)
		return erase(writing, block);
	if (step.kind == REAM_ZERO)
		return zero(writing, block);
	plan_page(plan, i, bytes);
	return put(writing, block, step.page, 0, bytes, sizeof(bytes));
}

/* Copies the dump and carries out the plan there. */
static bool fill_copy(FILE *stream, const void *from)
{
	struct writing writing = { stream, from };

	return copy_as_it_is(stream, writing.copy) && plan_go_through(writing.copy->plan, do_step, &writing);
}

/* ---- the whole */

bool apply_begin(struct application *application, const struct applying *applying, const struct dump *dump,
		 const struct plan *plan)
{
	struct outputs *outputs = &application->outputs;

	application->copy = (struct copy){ dump, plan, applying->out };
	application->after = dump->region;
	plan_carry_out(plan, &application->after);
	outputs->count = 0;
	outputs_add(outputs, (struct output){ "dump", applying->out, fill_copy, &application->copy });
	outputs_add(outputs, (struct output){ "status file", applying->status_out, status_fill,
					      &application->after });
	if (!pages_begin(&application->pages, applying->pages, plan, outputs))
		return false;
	if (outputs_begin(outputs, dump->read, dump->reads, applying->force))
		return true;
	pages_end(&application->pages, false);
	return false;
}

bool apply_finish(struct application *application)
{
	return outputs_finish(&application->outputs);
}

void apply_print(const struct application *application)
{
	struct settled table;

	outputs_print(&application->outputs);
	if (application->copy.path && table_read(&application->after, &table) == REAM_OK)
		table_print_pair(&table);
}

void apply_write(struct json *json, const struct application *application)
{
	struct settled table;

	outputs_write(json, &application->outputs);
	if (table_read(&application->after, &table) != REAM_OK)
		return;
	json_object(json, "after");
	table_write_pair(json, &table);
	json_end(json);
}

void apply_end(struct application *application, bool written)
{
	pages_end(&application->pages, written);
}
