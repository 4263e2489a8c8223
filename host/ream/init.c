/* ream init: a chip's first pair of tables, made on a copy of the dump if that is asked for. */
#include <inttypes.h>
#include <stdio.h>
#include <stdlib.h>
#include <string.h>

#include "apply.h"
#include "bitmap.h"
#include "dump.h"
#include "geometry.h"
#include "json.h"
#include "linux.h"
#include "look.h"
#include "notes.h"
#include "plan.h"
#include "steps.h"
#include "table.h"
#include "tool.h"

static const char help[] =
	"usage: ream init [--bitmap FILE] [--version V] [--block B]\n"
	"                 [--apply OUT [--steps S] [--status-out FILE]] [--pages DIR]\n"
	"                 [--force] [--blocks N] [--region-blocks R]\n"
	"                 [--pages-per-block K] [--status FILE] [--unreadable B:P,..]\n"
	"                 [--json] DUMP\n"
	"\n"
	"Plans the first pair of bad-block tables of a chip that has none: the primary,\n"
	"and the recovery that writes its mirror. Where there is a table already, or no\n"
	"two blocks are left for a pair, no plan is made, and it exits with 1.\n"
	"\n"
	"  --bitmap FILE         the table, N/4 bytes, two bits for each block; if not\n"
	"                        told, the blocks that are marked on their first or\n"
	"                        second page in the dump, of the whole chip then, are\n"
	"                        factory, and all others good\n"
	"  --version V           of both tables, 0 to 255; 1 if not told\n"
	"  --block B             the chip block of the primary; if not told the highest\n"
	"                        of the region that is not readable as bad\n"
	"  --apply OUT           carries the plan out on a copy of the dump, OUT\n"
	"  --steps S             with --apply: carries out its first S steps alone, as\n"
	"                        where power is cut then\n"
	APPLY_HELP
	DUMP_HELP;

/* Numbers that cannot be told, and the version where none is: the one that Linux begins with. */
enum { NO_VERSION = 256, FIRST_VERSION = 1, NO_BLOCK = REAM_BLOCKS_MAX, ALL_STEPS = 2 * MOST_BEFORE + 1 };

/* What is there already. */
enum found { NO_TABLE, SETTLED, NOT_SETTLED };

/* What is asked for, and what it comes to. */
struct job {
	struct shape shape;
	struct applying applying;
	const char *bitmap;		/* the path of its file, or NULL */
	uint64_t version, block, steps;
	bool json;
	struct dump dump;
	struct notes warnings, notes;
	enum found found;
	struct first first;
	struct plan plan;
	unsigned refusal;		/* of the recovery: from what is there, or from the primary */
	struct settled table;		/* the one that is there, or the one that is made */
	struct application application;
};

/* ---- what is asked for */

static bool is_standard(const char *path)
{
	return path && strcmp(path, "-") == 0;
}

/* Is the standard input, if it is the bitmap, no other file that is read? */
static bool once(const struct job *job, const char *file)
{
	const bool twice = is_standard(job->bitmap) && (is_standard(file) || is_standard(job->shape.status));

	if (twice)
		complain("-: is named for two files to read, the bitmap and %s",
			 is_standard(file) ? "the dump" : "the status file");
	return !twice;
}

/* Takes the arguments, and reads the dump. */
static enum parsed take(struct job *job, int argc, char **argv)
{
	struct syntax syntax = { .command = "init", .help = help, .file = "DUMP" };
	const char *file;
	enum parsed parsed;

	dump_options(&syntax, &job->shape);
	args_add(&syntax, (struct argument){ .name = "bitmap", .text = &job->bitmap });
	args_add(&syntax, (struct argument){ .name = "version", .number = &job->version, .most = UINT8_MAX,
					     .refusal = REFUSED_RANGE });
	args_add(&syntax, (struct argument){ .name = "block", .number = &job->block, .most = REAM_BLOCKS_MAX - 1 });
	args_add(&syntax, (struct argument){ .name = "steps", .number = &job->steps, .most = 2 * MOST_BEFORE });
	apply_options(&syntax, &job->applying);
	args_add(&syntax, (struct argument){ .name = "json", .flag = &job->json });
	parsed = args_parse(&syntax, argc, argv, &file);
	if (parsed != PARSED)
		return parsed;
	return apply_beside(&job->applying, "init", "--status-out", job->applying.status_out) &&
	       apply_beside(&job->applying, "init", "--steps", job->steps != ALL_STEPS) && once(job, file) &&
	       dump_read(&job->dump, file, &job->shape)
		       ? PARSED : PARSED_WRONG;
}

/* The highest block of the region that is not readable as bad; its size where there is none. */
static unsigned highest(const struct region *region)
{
	for (unsigned block = region->size; block > 0; block--)
		if (!region_bad(region, block - 1))
			return block - 1;
	return region->size;
}

/* Can the primary go to the block that is told? */
static bool is_free(const struct region *region, uint64_t block)
{
	const uint64_t first = region_first(region);
	const bool within = block >= first && block < region->n;
	const bool bad = within && region_bad(region, (unsigned)(block - first));

	if (!within || bad)
		complain("init: --block %" PRIu64 ": %s, expected one of the last %s blocks, %" PRIu64 " to %" PRIu64
			 "%s",
			 block, bad ? "is readable as bad" : "out of range", size_word(region->size), first,
			 region->n - 1, bad ? ", that is not" : "");
	return within && !bad;
}

/* Leaves the last steps undone, if that is asked for. */
static bool take_steps(struct job *job)
{
	if (job->steps == ALL_STEPS)
		return true;
	if (job->steps > job->plan.count) {
		complain("init: --steps %" PRIu64 ": expected at most %u, as the plan has no more", job->steps,
			 job->plan.count);
		return false;
	}
	job->plan.undone = job->plan.count - (unsigned)job->steps;
	return true;
}

/* ---- what is told */

/* What stands before the plan, or before a refusal. */
static void print_before(const struct job *job)
{
	dump_print(&job->dump);
	look_print_region(&job->dump.region);
	notes_print(&job->notes, "note");
}

/* A table is there already, and what to do with it. */
static void print_found(const struct job *job)
{
	printf("init: there is a table already, so no first pair is made\n");
	if (job->refusal != REAM_OK)
		print_refusal("recovery", job->refusal);
	else if (job->found == SETTLED)
		printf("  its pair is settled, version %u; an update marks blocks in it (ream update)\n",
		       job->table.version);
	else
		printf("  its pair is not settled; a recovery settles it (ream recover)\n");
	if (job->refusal == REAM_NO_TARGET)
		printf("  every block but the good copy's is readable as bad\n");
}

static void print_refused(const struct job *job)
{
	const struct region *region = &job->dump.region;

	print_before(job);
	if (job->found != NO_TABLE) {
		print_found(job);
		return;
	}
	print_refusal("init", job->refusal);
	if (job->refusal == REAM_NO_TARGET)
		printf("  every block but %" PRIu64 " is readable as bad: the primary would stand alone there\n",
		       region_first(region) + job->first.block);
	else
		printf("  every block of the region is readable as bad: there is none for a table\n");
}

static const char *number_from(bool told)
{
	return told ? "told" : "assumed";
}

static void print_plan(const struct job *job)
{
	print_before(job);
	if (job->bitmap)
		printf("bitmap: %s (told)\n", job->dump.read[job->dump.reads - 1].name);
	else
		printf("bitmap: by the marks in the dump\n");
	table_print_entries(&job->table, job->dump.region.n);
	printf("primary: block %u (%s), version %u (%s)\n", job->table.primary, number_from(job->block != NO_BLOCK),
	       job->table.version, number_from(job->version != NO_VERSION));
	steps_print("init", &job->plan, job->dump.pages_per_block, job->applying.pages != NULL);
}

/* What the steps that are done leave, if there are others. */
static void print_cut(const struct job *job)
{
	const struct plan *plan = &job->plan;

	if (plan->undone == 0)
		return;
	printf("cut: %u of %u steps done\n", plan->count - plan->undone, plan->count);
	look_print_region(&job->application.after);
	if (region_good(&job->application.after, job->first.block, PRIMARY))
		printf("  the primary stands alone; a recovery makes the mirror (ream recover)\n");
	else
		printf("  no copy is good; the first pair is made from the start (ream init)\n");
}

static void write_plan(struct json *json, const struct job *job)
{
	json_truth(json, "bitmap_told", job->bitmap != NULL);
	json_truth(json, "block_told", job->block != NO_BLOCK);
	json_truth(json, "version_told", job->version != NO_VERSION);
	table_write_entries(json, &job->table, job->dump.region.n);
	steps_write(json, &job->plan, job->dump.pages_per_block, job->applying.pages != NULL);
	json_number(json, "done", job->plan.count - job->plan.undone);
	apply_write(json, &job->application);
}

static void write_job(const struct job *job)
{
	static const char *const words[] = {
		[NO_TABLE] = "no table", [SETTLED] = "settled", [NOT_SETTLED] = "not settled",
	};
	struct json json = json_begin(stdout);

	json_text(&json, "command", "init");
	dump_write(&json, &job->dump);
	notes_write(&json, "warnings", &job->warnings);
	notes_write(&json, "notes", &job->notes);
	look_write_region(&json, &job->dump.region);
	json_text(&json, "found", words[job->found]);
	write_refusal(&json, job->refusal);
	if (job->found == NO_TABLE && job->refusal == REAM_OK)
		write_plan(&json, job);
	json_end(&json);
}

/* ---- the command */

/* Finds what is there already. */
static void find(struct job *job)
{
	const struct region *region = &job->dump.region;
	const unsigned reading = table_read(region, &job->table);

	job->refusal = plan_make(&job->plan, region, NULL);
	job->found = reading == REAM_OK ? SETTLED : job->refusal == REAM_NO_COPY ? NO_TABLE : NOT_SETTLED;
	geometry_doubt(&job->dump, &job->warnings);
	linux_look_at_pages(region, reading, &job->notes);
}

/* Tells that no plan is made. */
static enum exit_status tell_refused(const struct job *job)
{
	notes_warn(&job->warnings);
	if (job->json)
		write_job(job);
	else
		print_refused(job);
	return EXIT_REFUSED;
}

/* Reads the pair back that the whole plan leaves. The header's recipe settles on the bitmap and the version asked for,
 * so this does not come back with others. */
static void read_back(struct job *job)
{
	struct region after = job->dump.region;

	plan_carry_out(&job->plan, &after);
	if (table_read(&after, &job->table) == REAM_OK && job->table.version == job->first.version &&
	    memcmp(job->table.bitmap, job->first.bitmap, ream_bitmap_size(after.n)) == 0)
		return;
	complain("the pair that is made is not the one asked for");
	abort();
}

/* Tells the plan, with its files begun, and writes them. */
static bool carry_out(struct job *job)
{
	if (!job->json) {
		print_plan(job);
		fflush(stdout);
	}
	if (!apply_finish(&job->application))
		return false;
	if (job->json) {
		write_job(job);
	} else {
		apply_print(&job->application);
		print_cut(job);
	}
	return true;
}

/* Makes the plan of the first pair, tells it and carries it out. */
static enum exit_status plan_and_tell(struct job *job)
{
	bool written;

	job->refusal = plan_first(&job->plan, &job->dump.region, &job->first);
	if (job->refusal != REAM_OK)
		return tell_refused(job);
	read_back(job);
	if (!take_steps(job) || !apply_begin(&job->application, &job->applying, &job->dump, &job->plan))
		return EXIT_WRONG;
	notes_warn(&job->warnings);
	written = carry_out(job);
	apply_end(&job->application, written);
	return written ? EXIT_DONE : EXIT_WRONG;
}

/* Finds what is there, and what the primary is made from. */
static enum exit_status init(struct job *job)
{
	const struct region *region = &job->dump.region;
	uint8_t bitmap[MOST_BITMAP];

	find(job);
	if (job->found != NO_TABLE)
		return tell_refused(job);
	if (job->block != NO_BLOCK && !is_free(region, job->block))
		return EXIT_WRONG;
	if (highest(region) == region->size)
		return tell_refused(job);
	job->first.block = job->block == NO_BLOCK ? highest(region) : (unsigned)(job->block - region_first(region));
	if (!bitmap_take(bitmap, job->bitmap, &job->dump, region_first(region) + job->first.block, &job->notes))
		return EXIT_WRONG;
	job->first.bitmap = bitmap;
	job->first.version = job->version == NO_VERSION ? FIRST_VERSION : (unsigned)job->version;
	return plan_and_tell(job);
}

enum exit_status init_command(int argc, char **argv)
{
	struct job job = { .version = NO_VERSION, .block = NO_BLOCK, .steps = ALL_STEPS };
	const enum parsed parsed = take(&job, argc, argv);
	enum exit_status status;

	if (parsed != PARSED)
		return parsed == PARSED_HELP ? EXIT_DONE : EXIT_WRONG;
	status = init(&job);
	dump_close(&job.dump);
	return status;
}
