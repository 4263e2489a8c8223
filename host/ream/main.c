/* ream: takes the command's name and hands over to it. */
#include "tool.h"

#include <stdarg.h>
#include <stdio.h>
#include <string.h>

#include "reamsickle.h"

enum { COLUMNS = 80, TEXT_LEN = 512 };

static const char help[] =
	"usage: ream COMMAND [OPTIONS] [FILE]\n"
	"\n"
	"Reads dumps of the two NAND chips of an uplink blade through the Reamsickle\n"
	"library.\n"
	"\n"
	"  pair      reads the pair of bad-block tables in a dump of the large chip\n"
	"  first     makes a new chip's first bitmap by the marks of the factory\n"
	"  init      plans a chip's first pair of tables, and can make it on a copy\n"
	"  update    plans an update of the tables, and can carry it out on a copy\n"
	"  recover   plans a recovery of the tables, and can do so too\n"
	"  page      reads a page of the small chip, with repair\n"
	"  boot      maps the boot blocks in a dump of the small chip\n"
	"  simulate  shows a history with power cuts, as text and as a picture\n"
	"\n"
	"ream COMMAND --help and ream help COMMAND tell of a command, ream --version the\n"
	"version. Exit status: 0 done, 1 refused by the library, 2 an argument or a file\n"
	"is wrong.\n";

#define COMMANDS "pair, first, init, update, recover, page, boot or simulate"

static const struct command {
	const char *name;
	enum exit_status (*run)(int argc, char **argv);
} commands[] = {
	{ "pair", pair_command },
	{ "first", first_command },
	{ "init", init_command },
	{ "update", update_command },
	{ "recover", recover_command },
	{ "page", page_command },
	{ "boot", boot_command },
	{ "simulate", simulate_command },
};

void complain(const char *format, ...)
{
	va_list arguments;

	fflush(stdout);
	fputs("ream: ", stderr);
	va_start(arguments, format);
	vfprintf(stderr, format, arguments);
	va_end(arguments);
	fputc('\n', stderr);
}

void print_broken(const char *word, const char *format, ...)
{
	size_t column = (size_t)printf("%s:", word);
	char text[TEXT_LEN];
	const char *rest = text;
	va_list arguments;

	va_start(arguments, format);
	vsnprintf(text, sizeof(text), format, arguments);
	va_end(arguments);
	while (*rest) {
		const size_t len = strcspn(rest, " ");

		if (column + 1 + len > COLUMNS)
			column = (size_t)printf("\n ") - 1;
		column += (size_t)printf(" %.*s", (int)len, rest);
		rest += len + strspn(rest + len, " ");
	}
	putchar('\n');
}

enum exit_status print_refusal(const char *what, unsigned refusal)
{
	print_broken(what, "refused, %u: %s", refusal, ream_refusal_text(refusal));
	return EXIT_REFUSED;
}

void write_refusal(struct json *json, unsigned refusal)
{
	if (refusal == REAM_OK) {
		json_null(json, "refusal");
		return;
	}
	json_object(json, "refusal");
	json_number(json, "number", refusal);
	json_text(json, "text", ream_refusal_text(refusal));
	json_end(json);
}

const char *plural(uint64_t number)
{
	return number == 1 ? "" : "s";
}

const char *size_word(uint64_t size)
{
	static const char *const words[] = { [4] = "four", [5] = "five", [6] = "six", [7] = "seven" };

	return words[size];
}

static const struct command *find(const char *name)
{
	for (unsigned i = 0; i < sizeof(commands) / sizeof(commands[0]); i++)
		if (strcmp(name, commands[i].name) == 0)
			return &commands[i];
	complain("%s: no such command; expected " COMMANDS " (ream --help)", name);
	return NULL;
}

static enum exit_status print_help(void)
{
	fputs(help, stdout);
	return EXIT_DONE;
}

/* Prints the help of a command, as its own --help does. */
static enum exit_status help_with(char *name)
{
	const struct command *command = find(name);
	char option[] = "--help";
	char *argv[] = { name, option, NULL };

	return command ? command->run(2, argv) : EXIT_WRONG;
}

static enum exit_status run(int argc, char **argv)
{
	const struct command *command;

	if (argc < 2) {
		complain("no command; expected " COMMANDS " (ream --help)");
		return EXIT_WRONG;
	}
	if (strcmp(argv[1], "help") == 0 && argc > 2)
		return help_with(argv[2]);
	if (strcmp(argv[1], "--help") == 0 || strcmp(argv[1], "-h") == 0 || strcmp(argv[1], "help") == 0)
		return print_help();
	if (strcmp(argv[1], "--version") == 0) {
		puts("ream " REAM_LIBRARY_VERSION " (Reamsickle)");
		return EXIT_DONE;
	}
	command = find(argv[1]);
	return command ? command->run(argc - 1, argv + 1) : EXIT_WRONG;
}

int main(int argc, char **argv)
{
	const enum exit_status status = run(argc, argv);

	if (fflush(stdout) != 0 || ferror(stdout)) {
		complain("standard output: cannot be written");
		return EXIT_WRONG;
	}
	return (int)status;
}
