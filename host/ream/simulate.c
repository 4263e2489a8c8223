/* ream simulate: a story with power cuts and failed steps, as text, and as a picture or a dump if that is asked for. */
#include <inttypes.h>
#include <stdio.h>
#include <stdlib.h>

#include "args.h"
#include "dump.h"
#include "output.h"
#include "status.h"
#include "story.h"
#include "svg.h"
#include "timeline.h"
#include "tool.h"

static const char help[] =
	"usage: ream simulate [--blocks N] [--region-blocks R] [--seed S] [--events E]\n"
	"                     [--failures] [--stop] [--svg FILE] [--dump OUT]\n"
	"                     [--status-out FILE] [--pages-per-block K] [--force]\n"
	"\n"
	"Runs a history of updates, power cuts and recoveries on a chip in memory and\n"
	"prints what its last blocks, the region, hold after each event, and after each\n"
	"finished recovery which table was kept. The same seed gives the same history.\n"
	"Every event is judged; a broken rule ends the history, with exit status 1.\n"
	"\n"
	"  --blocks N            the chip's blocks, a multiple of 4 from 8 to 32768;\n"
	"                        1024 if not told\n"
	"  --region-blocks R     the blocks of the region, 4 to 7, at most half of N;\n"
	"                        4 if not told\n"
	"  --seed S              1 if not told\n"
	"  --events E            from 1 to 100000, 20 if not told; then what is begun\n"
	"                        goes on to its end, without a cut or a failed step\n"
	"  --failures            steps fail too while power is on; then it is planned\n"
	"                        anew, and the block that failed is retired\n"
	"  --stop                stops after these events, with the chip as it is\n"
	"  --svg FILE            draws the history, of at most 1000 events\n"
	"  --dump OUT            writes the region as it is at the end, as ream pair\n"
	"                        takes it\n"
	"  --status-out FILE     writes the status file that belongs to that dump\n"
	"  --pages-per-block K   of that dump, 64 if not told\n"
	"  --force               replaces files that are there already\n";

enum { MOST_EVENTS = 100000, MOST_DRAWN = 1000 };

struct order {
	struct chip chip;
	uint64_t seed, events;
	bool failures, stop, force;
	const char *svg, *dump, *status_out;
};

static enum parsed take(struct order *order, int argc, char **argv)
{
	struct syntax syntax = { .command = "simulate", .help = help };
	const char *file;
	enum parsed parsed;

	dump_chip_options(&syntax, &order->chip);
	args_add(&syntax, (struct argument){ .name = "seed", .number = &order->seed, .most = UINT64_MAX });
	args_add(&syntax, (struct argument){ .name = "events", .number = &order->events, .least = 1,
					   .most = MOST_EVENTS });
	args_add(&syntax, (struct argument){ .name = "failures", .flag = &order->failures });
	args_add(&syntax, (struct argument){ .name = "stop", .flag = &order->stop });
	args_add(&syntax, (struct argument){ .name = "svg", .text = &order->svg });
	args_add(&syntax, (struct argument){ .name = "dump", .text = &order->dump });
	args_add(&syntax, (struct argument){ .name = "status-out", .text = &order->status_out });
	args_add(&syntax, (struct argument){ .name = "force", .flag = &order->force });
	parsed = args_parse(&syntax, argc, argv, &file);
	if (parsed != PARSED)
		return parsed;
	if (order->svg && order->events > MOST_DRAWN) {
		complain("simulate: --svg with --events %" PRIu64 ": expected at most %d events for a picture",
			 order->events, MOST_DRAWN);
		return PARSED_WRONG;
	}
	return dump_fits(&order->chip) ? PARSED : PARSED_WRONG;
}

/* Runs the story and tells it. */
static bool run(const struct order *order, struct story *story, struct row *row)
{
	const struct setting setting = {
		.n = order->chip.blocks, .size = (unsigned)order->chip.region_blocks, .seed = order->seed,
		.events = order->events, .failures = order->failures, .stop = order->stop,
	};
	const bool held = story_run(story, &setting, row);

	timeline_print(story);
	if (held)
		printf("judged after every event: no rule broken\n");
	else
		printf("BROKEN: %s\n", story->broken);
	return held;
}

/* Runs the story with its files begun, and writes them. */
static enum exit_status tell(const struct order *order, struct story *story, struct row *row, struct dump *dump)
{
	struct outputs outputs = { .count = 0 };

	outputs_add(&outputs, (struct output){ "picture", order->svg, svg_fill, story });
	outputs_add(&outputs, (struct output){ "dump", order->dump, dump_fill, dump });
	outputs_add(&outputs, (struct output){ "status file", order->status_out, status_fill, &story->region });
	if (!outputs_begin(&outputs, NULL, 0, order->force))
		return EXIT_WRONG;
	if (!run(order, story, row)) {
		outputs_drop(&outputs);
		return EXIT_REFUSED;
	}
	dump->pages_per_block = order->chip.pages_per_block;
	dump->region = story->region;
	if (!outputs_finish(&outputs))
		return EXIT_WRONG;
	outputs_print(&outputs);
	return EXIT_DONE;
}

enum exit_status simulate_command(int argc, char **argv)
{
	struct order order = { .chip = { 1024, FEWEST_REGION_BLOCKS, PAGES_PER_BLOCK }, .seed = 1, .events = 20 };
	const enum parsed parsed = take(&order, argc, argv);
	enum exit_status status = EXIT_WRONG;
	struct story story;
	struct dump dump;
	struct row *row;

	if (parsed != PARSED)
		return parsed == PARSED_HELP ? EXIT_DONE : EXIT_WRONG;
	row = calloc((size_t)order.events + STORY_MORE, sizeof(*row));
	if (row)
		status = tell(&order, &story, row, &dump);
	else
		complain("simulate: there is no memory for %" PRIu64 " events", order.events);
	free(row);
	return status;
}
