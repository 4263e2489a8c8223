/* ream pair: the pair of tables in a dump, or why it cannot be read and what a recovery would do. */
#include <stdio.h>

#include "differ.h"
#include "dump.h"
#include "geometry.h"
#include "json.h"
#include "linux.h"
#include "look.h"
#include "notes.h"
#include "plan.h"
#include "steps.h"
#include "table.h"
#include "tool.h"

static const char help[] =
	"usage: ream pair [--blocks N] [--region-blocks R] [--pages-per-block K]\n"
	"                 [--status FILE] [--unreadable B:P,..] [--json] DUMP\n"
	"\n"
	"Reads the pair of bad-block tables in a dump of the large chip: its version,\n"
	"the blocks of both copies, how many entries there are of each kind, and the\n"
	"blocks that are not good. If the pair cannot be read, says why and what a\n"
	"recovery would do, and exits with 1.\n"
	"\n"
	DUMP_HELP;

/* What is found in a dump. */
struct finding {
	struct dump dump;
	struct settled table;
	unsigned refusal;	/* of reading it */
	struct plan recovery;	/* where it is refused */
	unsigned recovery_refusal;
	struct notes warnings, notes;
};

static void find(struct finding *finding)
{
	const struct region *region = &finding->dump.region;

	finding->refusal = table_read(region, &finding->table);
	finding->recovery_refusal = plan_make(&finding->recovery, region, NULL);
	finding->warnings.count = finding->notes.count = 0;
	geometry_doubt(&finding->dump, &finding->warnings);
	linux_look_at_pages(region, finding->refusal, &finding->notes);
	if (finding->refusal == REAM_OK)
		linux_look_at_entries(&finding->table, region->n, &finding->notes);
}

/* ---- as text */

/* The chip block of the last step, and the kind of copy that it leaves there. */
static void print_one_copy(const struct plan *plan)
{
	const struct ream_step step = plan_step(plan, plan->count - 1);
	const unsigned block = plan_block(plan, &step);
	const char *made, *other;
	struct region after = plan->snapshot;

	plan_carry_out(plan, &after);
	made = region_good(&after, block, PRIMARY) ? "primary" : "mirror";
	other = region_good(&after, block, PRIMARY) ? "mirror" : "primary";
	printf("recovery: would erase block %u and write the %s there\n", step.block, made);
	printf("  from the %s, version %u; %u steps\n", other, plan->version, plan->count);
}

static void print_recovery(const struct finding *finding)
{
	const struct plan *plan = &finding->recovery;
	const struct region *region = &finding->dump.region;

	if (finding->recovery_refusal != REAM_OK) {
		print_refusal("recovery", finding->recovery_refusal);
	} else if (plan->count == region->pages + 1) {
		print_one_copy(plan);
	} else {
		printf("recovery: would merge both tables (AND) and write both copies\n");
		printf("  version %u; %u steps\n", plan->version, plan->count);
	}
}

static void print_finding(const struct finding *finding)
{
	const struct region *region = &finding->dump.region;

	dump_print(&finding->dump);
	look_print_region(region);
	if (finding->refusal == REAM_OK) {
		table_print_pair(&finding->table);
		table_print_entries(&finding->table, region->n);
	} else {
		print_refusal("pair", finding->refusal);
		differ_print(region);
		print_recovery(finding);
	}
	notes_print(&finding->notes, "note");
}

/* ---- as JSON */

static void write_recovery(struct json *json, const struct finding *finding)
{
	json_object(json, "recovery");
	write_refusal(json, finding->recovery_refusal);
	if (finding->recovery_refusal == REAM_OK)
		steps_write(json, &finding->recovery, finding->dump.pages_per_block, false);
	json_end(json);
}

static void write_finding(const struct finding *finding)
{
	const struct region *region = &finding->dump.region;
	struct json json = json_begin(stdout);

	json_text(&json, "command", "pair");
	dump_write(&json, &finding->dump);
	notes_write(&json, "warnings", &finding->warnings);
	notes_write(&json, "notes", &finding->notes);
	look_write_region(&json, region);
	json_truth(&json, "settled", finding->refusal == REAM_OK);
	write_refusal(&json, finding->refusal);
	if (finding->refusal == REAM_OK) {
		table_write_pair(&json, &finding->table);
		table_write_entries(&json, &finding->table, region->n);
	} else {
		differ_write(&json, region);
		write_recovery(&json, finding);
	}
	json_end(&json);
}

/* ---- the command */

enum exit_status pair_command(int argc, char **argv)
{
	struct syntax syntax = { .command = "pair", .help = help, .file = "DUMP" };
	struct finding finding;
	struct shape shape;
	const char *file;
	bool json = false;
	enum parsed parsed;

	dump_options(&syntax, &shape);
	args_add(&syntax, (struct argument){ .name = "json", .flag = &json });
	parsed = args_parse(&syntax, argc, argv, &file);
	if (parsed != PARSED)
		return parsed == PARSED_HELP ? EXIT_DONE : EXIT_WRONG;
	if (!dump_read(&finding.dump, file, &shape))
		return EXIT_WRONG;
	find(&finding);
	dump_close(&finding.dump);
	notes_warn(&finding.warnings);
	if (json)
		write_finding(&finding);
	else
		print_finding(&finding);
	return finding.refusal == REAM_OK ? EXIT_DONE : EXIT_REFUSED;
}
