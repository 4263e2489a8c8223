/* ream boot: the map of the boot blocks in a dump of the small chip, and what to erase, or why there is no map. */
#include <inttypes.h>
#include <stdio.h>

#include "bootmap.h"
#include "json.h"
#include "notes.h"
#include "small.h"
#include "tool.h"

static const char help[] =
	"usage: ream boot [--all] [--pages-per-block K] [--spares] [--json] DUMP\n"
	"\n"
	"Maps the boot blocks in a dump of the small chip: which block holds which boot\n"
	"number, and which blocks are to be erased, as they are newer copies from an\n"
	"update that was cut. If there is no such map, says why, and exits with 1.\n"
	"\n"
	"  --all                 tells what every block holds\n"
	SMALL_HELP;

/* What is found in a dump. */
struct finding {
	struct small small;
	struct bootmap map;
	struct notes warnings;
};

static bool maps_some(const struct bootmap *map)
{
	return ream_refusal(map->answer) == REAM_OK && ream_mapped_count(map->answer) != 0;
}

/* Where nothing is mapped, the pages of a block may be told or assumed wrong. */
static void doubt_pages(const struct finding *finding, struct notes *warnings)
{
	struct small other;
	struct bootmap map;

	if (maps_some(&finding->map) || !small_otherwise(&finding->small, &other))
		return;
	bootmap_make(&map, &other);
	if (maps_some(&map))
		notes_add(warnings,
			  "%s: with %" PRIu64 " page%s a block no boot number is mapped, but with %" PRIu64
			  " (%u blocks) %u would be (--pages-per-block)",
			  other.input.id.name, finding->small.pages_per_block,
			  plural(finding->small.pages_per_block), other.pages_per_block, other.blocks,
			  ream_mapped_count(map.answer));
}

static void find(struct finding *finding)
{
	bootmap_make(&finding->map, &finding->small);
	finding->warnings.count = 0;
	doubt_pages(finding, &finding->warnings);
}

/* The chip block of a boot number that is mapped. */
static unsigned kept_block(const struct bootmap *map, uint32_t number)
{
	return ream_boot_block(map->mapped, number);
}

/* ---- as text */

static void print_repairs(const struct boot_block *block)
{
	const unsigned first = block->first.fields.repairs, last = block->last.fields.repairs;

	if (first != 0)
		printf("first page %u%s", first, last != 0 ? ", " : "");
	if (last != 0)
		printf("last page %u", last);
	printf("%s\n", first == 0 && last == 0 ? "-" : "");
}

static void print_mapped(const struct finding *finding)
{
	const struct bootmap *map = &finding->map;

	printf("  boot  block  generation  %srepairs\n", finding->small.spares_alone ? "" : "address      ");
	for (unsigned number = 0; number < ream_mapped_count(map->answer); number++) {
		const unsigned chip_block = kept_block(map, number);
		const struct boot_block *block = &map->block[chip_block];

		printf("  %4u  %5u  %10u  ", number, chip_block, bootmap_generation(block));
		if (!finding->small.spares_alone)
			printf("0x%09" PRIx64 "  ", small_address(&finding->small, chip_block));
		print_repairs(block);
	}
}

static void print_erased(const struct finding *finding)
{
	const struct bootmap *map = &finding->map;

	for (unsigned i = 0; i < ream_erased_count(map->answer); i++) {
		const unsigned chip_block = ream_boot_block(map->erased, i);
		const struct boot_block *block = &map->block[chip_block];
		const unsigned kept = kept_block(map, bootmap_number(block));

		printf("erase: block %u", chip_block);
		if (!finding->small.spares_alone)
			printf(", address 0x%09" PRIx64, small_address(&finding->small, chip_block));
		printf("\n  a newer copy of boot %" PRIu32 ": generation %u, and block %u holds generation %u\n",
		       bootmap_number(block), bootmap_generation(block), kept, bootmap_generation(&map->block[kept]));
	}
}

static void print_map(const struct finding *finding)
{
	const unsigned mapped = ream_mapped_count(finding->map.answer);
	const unsigned erased = ream_erased_count(finding->map.answer);

	if (mapped == 0) {
		printf("boot: there is no boot block: nothing is mapped, and nothing to erase\n");
		return;
	}
	printf("boot: %u block%s mapped, %u to erase\n", mapped, plural(mapped), erased);
	print_mapped(finding);
	print_erased(finding);
}

/* ---- why there is no map */

static bool holds(const struct boot_block *block, uint32_t number)
{
	return block->counts && bootmap_number(block) == number;
}

/* How many blocks hold a boot number. */
static unsigned holders(const struct bootmap *map, uint32_t number)
{
	unsigned count = 0;

	for (unsigned i = 0; i < map->blocks; i++)
		count += holds(&map->block[i], number);
	return count;
}

/* The first block that holds the highest boot number of all. */
static unsigned highest(const struct bootmap *map)
{
	unsigned found = 0;

	for (unsigned i = 1; i < map->blocks; i++)
		if (map->block[i].counts && (!map->block[found].counts ||
					     bootmap_number(&map->block[i]) > bootmap_number(&map->block[found])))
			found = i;
	return found;
}

/* Is it passed over though a page of it carries the boot number? */
static bool nearly_holds(const struct boot_block *block, uint32_t number)
{
	return !block->counts && (spare_carries(&block->first, number) || spare_carries(&block->last, number));
}

static void print_missing(const struct bootmap *map, uint32_t number)
{
	const unsigned found = highest(map);

	printf("  boot %" PRIu32 " is missing; the highest found is boot %" PRIu32 ", in block %u\n", number,
	       bootmap_number(&map->block[found]), found);
	for (unsigned i = 0; i < map->blocks; i++) {
		if (!nearly_holds(&map->block[i], number))
			continue;
		printf("  block %u is passed over: ", i);
		bootmap_print_block(&map->block[i]);
	}
}

static void print_several(const struct bootmap *map, uint32_t number, unsigned count)
{
	printf("  boot %" PRIu32 " is in %u blocks%s\n", number, count,
	       count == 2 ? ", of which neither is the next generation of the other"
			  : "; expected one, or two of which one is the newer");
	for (unsigned i = 0; i < map->blocks; i++)
		if (holds(&map->block[i], number))
			printf("    block %u: generation %u\n", i, bootmap_generation(&map->block[i]));
}

static void print_refused(const struct bootmap *map, bool all)
{
	const uint32_t number = ream_detail(map->answer);
	const unsigned count = holders(map, number);

	print_refusal("boot", ream_refusal(map->answer));
	if (count == 0)
		print_missing(map, number);
	else
		print_several(map, number, count);
	printf("  higher numbers may be wrong too%s\n", all ? "" : "; --all tells what every block holds");
}

static void print_finding(const struct finding *finding, bool all)
{
	small_print(&finding->small);
	bootmap_print_passed(&finding->map);
	if (all)
		bootmap_print_blocks(&finding->map);
	if (ream_refusal(finding->map.answer) == REAM_OK)
		print_map(finding);
	else
		print_refused(&finding->map, all);
}

/* ---- as JSON */

/* Writes the blocks that count. */
static void write_boot_blocks(struct json *json, const struct finding *finding)
{
	json_list(json, "boot_blocks");
	for (unsigned i = 0; i < finding->map.blocks; i++) {
		const struct boot_block *block = &finding->map.block[i];

		if (!block->counts)
			continue;
		json_object(json, NULL);
		json_number(json, "block", i);
		if (!finding->small.spares_alone)
			json_number(json, "address", small_address(&finding->small, i));
		spare_write_path(json, &block->first.fields);
		json_number(json, "repairs_first", block->first.fields.repairs);
		json_number(json, "repairs_last", block->last.fields.repairs);
		json_end(json);
	}
	json_end(json);
}

/* Writes a list that the library filled. */
static void write_list(struct json *json, const char *name, const uint8_t *list, unsigned count)
{
	json_list(json, name);
	for (unsigned i = 0; i < count; i++)
		json_number(json, NULL, ream_boot_block(list, i));
	json_end(json);
}

static void write_refused(struct json *json, const struct bootmap *map)
{
	const uint32_t number = ream_detail(map->answer);

	json_number(json, "boot_number", number);
	json_list(json, "held_by");
	for (unsigned i = 0; i < map->blocks; i++)
		if (holds(&map->block[i], number))
			json_number(json, NULL, i);
	json_end(json);
}

static void write_finding(const struct finding *finding)
{
	const struct bootmap *map = &finding->map;
	struct json json = json_begin(stdout);

	json_text(&json, "command", "boot");
	small_write(&json, &finding->small);
	notes_write(&json, "warnings", &finding->warnings);
	write_boot_blocks(&json, finding);
	bootmap_write_passed(&json, map);
	bootmap_write_blocks(&json, map);
	write_refusal(&json, ream_refusal(map->answer));
	if (ream_refusal(map->answer) == REAM_OK) {
		write_list(&json, "mapped", map->mapped, ream_mapped_count(map->answer));
		write_list(&json, "erase", map->erased, ream_erased_count(map->answer));
	} else {
		write_refused(&json, map);
	}
	json_end(&json);
}

/* ---- the command */

enum exit_status boot_command(int argc, char **argv)
{
	struct syntax syntax = { .command = "boot", .help = help, .file = "DUMP" };
	struct finding finding;
	struct small_shape shape;
	const char *file;
	bool all = false, json = false;
	enum parsed parsed;

	args_add(&syntax, (struct argument){ .name = "all", .flag = &all });
	small_options(&syntax, &shape);
	args_add(&syntax, (struct argument){ .name = "json", .flag = &json });
	parsed = args_parse(&syntax, argc, argv, &file);
	if (parsed != PARSED)
		return parsed == PARSED_HELP ? EXIT_DONE : EXIT_WRONG;
	if (!small_read(&finding.small, file, &shape))
		return EXIT_WRONG;
	find(&finding);
	small_close(&finding.small);
	notes_warn(&finding.warnings);
	if (json)
		write_finding(&finding);
	else
		print_finding(&finding, all);
	return ream_refusal(finding.map.answer) == REAM_OK ? EXIT_DONE : EXIT_REFUSED;
}
