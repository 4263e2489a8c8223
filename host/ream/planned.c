/* ream update and ream recover: a plan, carried out on a copy of the dump if that is asked for. */
#include <stdio.h>

#include "apply.h"
#include "differ.h"
#include "dump.h"
#include "failed.h"
#include "geometry.h"
#include "json.h"
#include "marks.h"
#include "notes.h"
#include "plan.h"
#include "steps.h"
#include "table.h"
#include "tool.h"

#define PLAN_HELP \
	"  --failed S,S,..       the steps that failed on the chip, oldest first, each by\n" \
	"                        its number in the plan as it was then: plans anew; the\n" \
	"                        dump is the one that the first plan was made from\n" \
	"  --apply OUT           carries the plan out on a copy of the dump, OUT, after\n" \
	"                        what was done before steps failed\n" \
	APPLY_HELP \
	DUMP_HELP

static const char update_help[] =
	"usage: ream update --mark-late B,B,.. [--failed S,S,..]\n"
	"                   [--apply OUT [--status-out FILE]] [--pages DIR] [--force]\n"
	"                   [--blocks N] [--region-blocks R] [--pages-per-block K]\n"
	"                   [--status FILE] [--unreadable B:P,..] [--json] DUMP\n"
	"\n"
	"Plans the update of a settled pair of bad-block tables that marks blocks as\n"
	"gone bad in use. A block that is not good already keeps its entry. A pair that\n"
	"is not settled is refused, with exit status 1.\n"
	"\n"
	"  --mark-late B,B,..    the chip blocks to mark, numbers or ranges as in\n"
	"                        7,12-15; given several times, all of them are marked\n"
	PLAN_HELP;

static const char recover_help[] =
	"usage: ream recover [--failed S,S,..] [--apply OUT [--status-out FILE]]\n"
	"                    [--pages DIR] [--force] [--blocks N] [--region-blocks R]\n"
	"                    [--pages-per-block K] [--status FILE] [--unreadable B:P,..]\n"
	"                    [--json] DUMP\n"
	"\n"
	"Plans the recovery of a pair of bad-block tables, as after a power cut. Where\n"
	"there is nothing to recover from, or to, it is refused, with exit status 1.\n"
	"\n"
	PLAN_HELP;

/* What a command is asked for, and what it comes to. */
struct job {
	const char *command;
	struct shape shape;
	struct applying applying;
	struct texts mark_late, failed_lists;
	bool json;
	struct failed failed;
	struct dump dump;
	struct notes warnings;
	struct plan plan;
	struct failures failures;
	unsigned refusal;
	struct settled table;	/* before an update */
	struct application application;
};

/* Takes the arguments, and reads the dump. */
static enum parsed take(struct job *job, struct syntax *syntax, int argc, char **argv)
{
	const char *file;
	enum parsed parsed;

	job->command = syntax->command;
	dump_options(syntax, &job->shape);
	args_add(syntax, (struct argument){ .name = "failed", .texts = &job->failed_lists, .empty = true });
	apply_options(syntax, &job->applying);
	args_add(syntax, (struct argument){ .name = "json", .flag = &job->json });
	parsed = args_parse(syntax, argc, argv, &file);
	if (parsed != PARSED)
		return parsed;
	return apply_beside(&job->applying, job->command, "--status-out", job->applying.status_out) &&
	       failed_take(&job->failed_lists, &job->failed) && dump_read(&job->dump, file, &job->shape)
		       ? PARSED : PARSED_WRONG;
}

/* ---- what is told */

/* What stands before the plan. */
static void print_before(const struct job *job)
{
	dump_print(&job->dump);
	if (job->plan.updates)
		marks_print(job->table.bitmap, job->plan.wanted, job->dump.region.n);
	else
		differ_print(&job->dump.region);
	failed_print(&job->failures);
}

/* The refusal, and what to do then. */
static void print_refused(const struct job *job)
{
	dump_print(&job->dump);
	failed_print(&job->failures);
	print_refusal(job->command, job->refusal);
	failed_advise(&job->failures);
	if (job->failures.count > 0)
		return;
	if (job->refusal == REAM_NO_TARGET)
		printf("  every block but the good copy's is readable as bad\n");
	if (job->plan.updates && job->refusal == REAM_NOT_SETTLED)
		printf("  a recovery comes first (ream recover)\n");
	if (job->failed.count > 0)
		printf("  --failed goes with the dump that the first plan was made from, as it was then\n");
}

static void write_job(const struct job *job)
{
	struct json json = json_begin(stdout);

	json_text(&json, "command", job->command);
	dump_write(&json, &job->dump);
	notes_write(&json, "warnings", &job->warnings);
	failed_write(&json, &job->failures);
	write_refusal(&json, job->refusal);
	if (job->refusal == REAM_OK) {
		if (job->plan.updates)
			marks_write(&json, job->table.bitmap, job->plan.wanted, job->dump.region.n);
		else
			differ_write(&json, &job->dump.region);
		steps_write(&json, &job->plan, job->dump.pages_per_block, job->applying.pages != NULL);
		apply_write(&json, &job->application);
	}
	json_end(&json);
}

/* ---- the commands */

/* Tells the plan, with its files begun, and writes them. */
static bool carry_out(struct job *job)
{
	if (!job->json) {
		print_before(job);
		steps_print(job->command, &job->plan, job->dump.pages_per_block, job->applying.pages != NULL);
		fflush(stdout);
	}
	if (!apply_finish(&job->application))
		return false;
	if (job->json)
		write_job(job);
	else
		apply_print(&job->application);
	return true;
}

/* Tells that the library refuses. */
static enum exit_status tell_refused(const struct job *job)
{
	notes_warn(&job->warnings);
	if (job->json)
		write_job(job);
	else
		print_refused(job);
	return EXIT_REFUSED;
}

/* Makes the plan, to a wanted bitmap or of a recovery, tells it and carries it out. */
static enum exit_status plan_and_tell(struct job *job, const uint8_t *wanted)
{
	bool written;

	geometry_doubt(&job->dump, &job->warnings);
	job->refusal = plan_make(&job->plan, &job->dump.region, wanted);
	if (job->refusal == REAM_OK)
		job->refusal = failed_plan(&job->failed, &job->plan, &job->failures);
	if (job->refusal != REAM_OK)
		return tell_refused(job);
	table_read(&job->dump.region, &job->table);
	if (!apply_begin(&job->application, &job->applying, &job->dump, &job->plan))
		return EXIT_WRONG;
	notes_warn(&job->warnings);
	written = carry_out(job);
	apply_end(&job->application, written);
	return written ? EXIT_DONE : EXIT_WRONG;
}

/* Finds the wanted bitmap of an update, and plans it. */
static enum exit_status update(struct job *job)
{
	uint8_t wanted[MOST_BITMAP];

	if (job->mark_late.count == 0) {
		complain("update: expected --mark-late with the blocks to mark");
		return EXIT_WRONG;
	}
	if (!marks_want(&job->mark_late, job->dump.region.n, wanted))
		return EXIT_WRONG;
	return plan_and_tell(job, wanted);
}

enum exit_status update_command(int argc, char **argv)
{
	struct syntax syntax = { .command = "update", .help = update_help, .file = "DUMP" };
	struct job job = { .json = false };
	enum parsed parsed;
	enum exit_status status;

	args_add(&syntax, (struct argument){ .name = "mark-late", .texts = &job.mark_late });
	parsed = take(&job, &syntax, argc, argv);
	if (parsed != PARSED)
		return parsed == PARSED_HELP ? EXIT_DONE : EXIT_WRONG;
	status = update(&job);
	dump_close(&job.dump);
	return status;
}

enum exit_status recover_command(int argc, char **argv)
{
	struct syntax syntax = { .command = "recover", .help = recover_help, .file = "DUMP" };
	struct job job = { .json = false };
	const enum parsed parsed = take(&job, &syntax, argc, argv);
	enum exit_status status;

	if (parsed != PARSED)
		return parsed == PARSED_HELP ? EXIT_DONE : EXIT_WRONG;
	status = plan_and_tell(&job, NULL);
	dump_close(&job.dump);
	return status;
}
