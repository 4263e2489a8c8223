/*
 * The host test: calls every entry of the library on good, damaged and senseless inputs, the same ones in
 * every run, and compares each answer and each lent byte with the reference (see calls.h). Where document 01
 * fixes the outcome of a trial in words, the outcome is checked by itself too.
 *
 *	host_test [one in]
 *
 * With a number, a short run: of the rounds of long trials one in so many is made.
 *
 * The last line says how many calls were compared and how many differences were found; the exit status
 * is 0 if there were none.
 */
#include <stdio.h>
#include <stdlib.h>

#include "tests.h"

enum { SEED = 20240229 };

static void run(struct test *test, struct scene *scene)
{
	test_half_code(test);
	test_spare_write(test);
	test_spare_read(test);
	test_page_read(test);
	test_boot_map(test);
	test_first_bitmap(test, scene);
	test_pair(test, scene);
	test_sizes(test, scene);
	test_update(test, scene);
	test_steps(test, scene);
	test_failed(test, scene);
	test_table_page(test, scene);
	test_first_pair(test, scene);
	test_drawn(test, scene);
	test_header(test, scene);
	test_arguments(test, scene);
}

/* The argument: a number from 1 on. */
static bool parse(const char *text, uint64_t *number)
{
	char *end;

	*number = strtoull(text, &end, 10);
	return *text >= '1' && *text <= '9' && *end == '\0';
}

int main(int argc, char **argv)
{
	struct test *test = calloc(1, sizeof(*test));
	struct scene *scene = calloc(1, sizeof(*scene));
	int status = EXIT_FAILURE;

	if (!test || !scene) {
		printf("host test: no memory\n");
	} else if (argc > 2 || (argc > 1 && !parse(argv[1], &test->one_in))) {
		printf("usage: host_test [one in]\n");
	} else {
		test->state = SEED;
		run(test, scene);
		status = test_end(test);
	}
	free(test);
	free(scene);
	return status;
}
