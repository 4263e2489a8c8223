/* ream first: a chip's first bitmap by the factory's marks, and which page of a bad block is marked. */
#include <inttypes.h>
#include <stdio.h>

#include "args.h"
#include "dump.h"
#include "factory.h"
#include "geometry.h"
#include "json.h"
#include "linux.h"
#include "markfile.h"
#include "notes.h"
#include "output.h"
#include "reamsickle.h"
#include "table.h"
#include "tool.h"

static const char help[] =
	"usage: ream first [--marks] [--bitmap-out FILE [--force]] [--blocks N]\n"
	"                  [--region-blocks R] [--pages-per-block K] [--json] DUMP\n"
	"\n"
	"Makes the first bitmap of a new chip by the factory's marks: OOB byte 0 of the\n"
	"first and of the second page of each block. A block is factory if either is 0,\n"
	"and good otherwise. Tells which blocks are bad, and by which page.\n"
	"\n"
	"  --marks               DUMP holds marks alone, 2 bytes a block: that of its\n"
	"                        first page, then that of its second\n"
	"  --bitmap-out FILE     writes the bitmap, N/4 bytes, as init --bitmap takes it\n"
	"  --force               replaces FILE if it is there already\n"
	"  --blocks N            the chip's blocks, a multiple of 4 from 8 to 32768; by\n"
	"                        the size of DUMP if not told\n"
	"  --region-blocks R     the chip's last blocks that are the region, which holds\n"
	"                        the tables: 4 to 7, at most half of N; 4 if not told\n"
	"  --pages-per-block K   pages of a block in the dump, 64 if not told; a dump of\n"
	"                        1 page a block does not show all marks\n"
	"  --json                answers in JSON\n"
	"  DUMP                  pages of 2048 + 64 bytes in turn, of the whole chip;\n"
	"                        - is the standard input\n";

/* What is asked for, and what it comes to. */
struct job {
	struct shape shape;
	const char *out;		/* the path of the bitmap to write, or NULL */
	bool marks_alone, force, json;
	struct dump dump;
	struct markfile file;		/* where marks are alone, in place of the dump */
	struct factory factory;
	uint8_t bitmap[MOST_BITMAP];
	struct notes warnings, notes;
	struct outputs outputs;
};

/* ---- what is told */

/* How many entries of the bitmap are factory. */
static uint64_t bad_blocks(const struct job *job)
{
	uint64_t number = 0;

	for (uint64_t block = 0; block < job->factory.n; block++)
		number += ream_entry_get(job->bitmap, block) == REAM_ENTRY_FACTORY;
	return number;
}

/* The last block of the run of blocks marked alike that starts at a block. */
static uint64_t run_end(const struct factory *factory, uint64_t block)
{
	const enum marked marked = factory_marked(factory, block);

	while (block + 1 < factory->n && factory_marked(factory, block + 1) == marked)
		block++;
	return block;
}

/* The pages on which blocks are marked, in a word. */
static const char *marked_word(enum marked marked)
{
	static const char *const words[] = {
		[FIRST_PAGE] = "first", [SECOND_PAGE] = "second", [BOTH_PAGES] = "both",
	};

	return words[marked];
}

/* Prints the blocks that are marked, a line for each run of those marked alike. */
static void print_marked(const struct factory *factory)
{
	uint64_t end;

	for (uint64_t block = 0; block < factory->n; block = end + 1) {
		const enum marked marked = factory_marked(factory, block);

		end = run_end(factory, block);
		if (marked == NOT_MARKED)
			continue;
		table_print_run(block, end);
		printf(": %s page%s\n", marked_word(marked), marked == BOTH_PAGES ? "s" : "");
	}
}

static void print_job(const struct job *job)
{
	const uint64_t bad = bad_blocks(job);

	if (job->marks_alone)
		markfile_print(&job->file);
	else
		dump_print(&job->dump);
	notes_print(&job->notes, "note");
	if (bad == 0)
		printf("bad: none of %" PRIu64 " blocks\n", job->factory.n);
	else
		printf("bad: %" PRIu64 " of %" PRIu64 " blocks\n", bad, job->factory.n);
	print_marked(&job->factory);
	outputs_print(&job->outputs);
}

static void write_marked(struct json *json, const struct factory *factory)
{
	uint64_t end;

	json_list(json, "marked");
	for (uint64_t block = 0; block < factory->n; block = end + 1) {
		const enum marked marked = factory_marked(factory, block);

		end = run_end(factory, block);
		if (marked == NOT_MARKED)
			continue;
		json_object(json, NULL);
		table_write_run(json, block, end);
		json_text(json, "page", marked_word(marked));
		json_end(json);
	}
	json_end(json);
}

static void write_job(const struct job *job)
{
	const uint64_t bad = bad_blocks(job);
	struct json json = json_begin(stdout);

	json_text(&json, "command", "first");
	json_truth(&json, "marks_alone", job->marks_alone);
	if (job->marks_alone)
		markfile_write(&json, &job->file);
	else
		dump_write(&json, &job->dump);
	notes_write(&json, "warnings", &job->warnings);
	notes_write(&json, "notes", &job->notes);
	write_refusal(&json, REAM_OK);
	json_number(&json, "good", job->factory.n - bad);
	json_number(&json, "bad", bad);
	write_marked(&json, &job->factory);
	outputs_write(&json, &job->outputs);
	json_end(&json);
}

/* ---- the command */

/* What the region of a dump shows: numbers that it contradicts, and that the chip is not new. */
static void look_at_region(struct job *job)
{
	const struct region *region = &job->dump.region;
	struct settled table;
	const unsigned reading = table_read(region, &table);

	geometry_doubt(&job->dump, &job->warnings);
	linux_look_at_pages(region, reading, &job->notes);
	if (reading != REAM_NO_COPY)
		notes_add(&job->notes,
			  "there is a table already (ream pair), so the chip is not new. The marks of a chip in use "
			  "are not all the factory's: a block that was retired shows the same");
}

/* Reads the marks, of a dump or alone. */
static bool read_marks(struct job *job, const char *path)
{
	bool read;

	if (job->marks_alone)
		return markfile_read(&job->file, &job->factory, path, &job->shape.chip);
	if (!dump_read(&job->dump, path, &job->shape))
		return false;
	read = factory_read(&job->factory, &job->dump, "first: expected all pages of the whole chip, or --marks");
	if (read)
		look_at_region(job);
	dump_close(&job->dump);
	return read;
}

static bool fill_bitmap(FILE *stream, const void *from)
{
	const struct job *job = from;

	return output_put(stream, job->out, 0, job->bitmap, ream_bitmap_size(job->factory.n));
}

/* Writes the bitmap, if that is asked for. */
static bool write_bitmap(struct job *job)
{
	const struct file_id *read = job->marks_alone ? &job->file.id : &job->dump.input.id;

	outputs_add(&job->outputs, (struct output){ "bitmap", job->out, fill_bitmap, job });
	return outputs_begin(&job->outputs, read, 1, job->force) && outputs_finish(&job->outputs);
}

static enum exit_status make_and_tell(struct job *job)
{
	factory_look_at_region(&job->factory, &job->notes);
	factory_bitmap(&job->factory, job->bitmap);
	if (!write_bitmap(job))
		return EXIT_WRONG;
	notes_warn(&job->warnings);
	if (job->json)
		write_job(job);
	else
		print_job(job);
	return EXIT_DONE;
}

enum exit_status first_command(int argc, char **argv)
{
	struct syntax syntax = { .command = "first", .help = help, .file = "DUMP" };
	struct job job = { .out = NULL };
	const char *file;
	enum parsed parsed;

	dump_chip_options(&syntax, &job.shape.chip);
	args_add(&syntax, (struct argument){ .name = "marks", .flag = &job.marks_alone });
	args_add(&syntax, (struct argument){ .name = "bitmap-out", .text = &job.out });
	args_add(&syntax, (struct argument){ .name = "force", .flag = &job.force });
	args_add(&syntax, (struct argument){ .name = "json", .flag = &job.json });
	parsed = args_parse(&syntax, argc, argv, &file);
	if (parsed != PARSED)
		return parsed == PARSED_HELP ? EXIT_DONE : EXIT_WRONG;
	return read_marks(&job, file) ? make_and_tell(&job) : EXIT_WRONG;
}
