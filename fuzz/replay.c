/*
 * Runs inputs of the fuzzed target without libFuzzer: those of a corpus, or one that libFuzzer found.
 *
 *	replay file ..
 *
 * An input that differs shows its call and ends the program; a fence that is touched ends it without a word. The
 * files one by one then tell which it was.
 */
#include <stdio.h>
#include <stdlib.h>

#include "fuzz_entries.h"

enum { MOST_BYTES = 4096 };

/* Gives false if the file cannot be read. */
static int replay(const char *name)
{
	uint8_t bytes[MOST_BYTES];
	FILE *file = fopen(name, "rb");
	size_t len;

	if (!file) {
		printf("replay: %s cannot be read\n", name);
		return 0;
	}
	len = fread(bytes, 1, sizeof(bytes), file);
	fclose(file);
	LLVMFuzzerTestOneInput(bytes, len);
	return 1;
}

int main(int argc, char **argv)
{
	for (int i = 1; i < argc; i++)
		if (!replay(argv[i]))
			return EXIT_FAILURE;
	printf("replay: %d inputs, none differs\n", argc - 1);
	return EXIT_SUCCESS;
}
