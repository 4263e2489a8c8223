/* The steps of a plan, as a table and as JSON. */
#include "steps.h"

#include <inttypes.h>
#include <stdio.h>

#include "pages.h"
#include "tool.h"

static uint64_t address(const struct ream_step *step, uint64_t pages_per_block)
{
	return (step->block * pages_per_block + step->page) * PAGE_DATA;
}

static void print_step(const struct plan *plan, unsigned i, uint64_t pages_per_block, bool names)
{
	const struct ream_step step = plan_step(plan, i);
	char name[PAGE_NAME_LEN];

	printf("  %4u  %-5s  %5u  ", i, plan_does(&step), step.block);
	if (step.kind == REAM_ERASE)
		printf("   -");
	else
		printf("%4u", step.page);
	printf("  0x%09" PRIx64, address(&step, pages_per_block));
	pages_name(plan, i, name);
	if (names && pages_has(plan, i))
		printf("  %s", name);
	putchar('\n');
}

void steps_print(const char *command, const struct plan *plan, uint64_t pages_per_block, bool names)
{
	if (plan->count == 0) {
		printf("%s: nothing to do, the table keeps version %u\n", command, plan->version);
		return;
	}
	printf("%s: %u steps, to version %u\n", command, plan->count, plan->version);
	printf("  step  does   block  page  address%s\n", names ? "      its page's file" : "");
	for (unsigned i = 0; i < plan->count; i++)
		print_step(plan, i, pages_per_block, names);
	if (plan_step(plan, 0).kind == REAM_ZERO)
		printf("  a zero step writes 00 to all 64 OOB bytes of its page, and no data\n");
}

void steps_write(struct json *json, const struct plan *plan, uint64_t pages_per_block, bool names)
{
	json_number(json, "version", plan->version);
	json_list(json, "steps");
	for (unsigned i = 0; i < plan->count; i++) {
		const struct ream_step step = plan_step(plan, i);
		char name[PAGE_NAME_LEN];

		json_object(json, NULL);
		json_number(json, "step", i);
		json_text(json, "does", plan_does(&step));
		json_number(json, "block", step.block);
		if (step.kind != REAM_ERASE)
			json_number(json, "page", step.page);
		json_number(json, "address", address(&step, pages_per_block));
		pages_name(plan, i, name);
		if (names && pages_has(plan, i))
			json_text(json, "file", name);
		json_end(json);
	}
	json_end(json);
}
