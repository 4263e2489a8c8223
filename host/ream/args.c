/* The arguments of a command. */
#include "args.h"

#include <errno.h>
#include <getopt.h>
#include <inttypes.h>
#include <stdio.h>
#include <stdlib.h>
#include <string.h>

#include "tool.h"

/* What getopt_long() gives: for help this letter, for an option its place among the arguments from FIRST on, so
 * that it is no letter. */
enum { HELP = 'h', FIRST = 256 };

void args_add(struct syntax *syntax, struct argument argument)
{
	syntax->argument[syntax->count++] = argument;
}

struct numeral args_numeral(const char *text)
{
	const bool negative = text[0] == '-';
	const char *digits = text + (negative ? 1 : 0);
	struct numeral numeral = { 0, false, NULL };
	char *end;

	if (*digits < '0' || *digits > '9')
		return numeral;
	errno = 0;
	numeral.value = strtoull(digits, &end, 10);
	numeral.outside = negative || errno != 0;
	numeral.end = end;
	return numeral;
}

/* ---- values */

static bool within(const struct argument *argument, const struct numeral *numeral)
{
	return !numeral->outside && numeral->value >= argument->least && numeral->value <= argument->most &&
	       (argument->multiple == 0 || numeral->value % argument->multiple == 0);
}

static void complain_of_number(const struct syntax *syntax, const struct argument *argument, const char *text,
			       bool outside)
{
	char kind[48] = "number";

	if (argument->multiple != 0)
		snprintf(kind, sizeof(kind), "multiple of %" PRIu64, argument->multiple);
	complain("%s: --%s %s: %sexpected a %s from %" PRIu64 " to %" PRIu64 "%s%s%s", syntax->command,
		 argument->name, text, outside ? "out of range, " : "", kind, argument->least, argument->most,
		 outside && argument->refusal ? " (" : "", outside && argument->refusal ? argument->refusal : "",
		 outside && argument->refusal ? ")" : "");
}

static bool take_number(const struct syntax *syntax, const struct argument *argument, const char *text)
{
	const struct numeral numeral = args_numeral(text);
	const bool whole = numeral.end && *numeral.end == '\0';

	if (!whole || !within(argument, &numeral)) {
		complain_of_number(syntax, argument, text, whole);
		return false;
	}
	*argument->number = numeral.value;
	return true;
}

static bool gather(const struct syntax *syntax, const struct argument *argument, const char *text)
{
	if (argument->texts->count == MOST_TEXTS) {
		complain("%s: --%s %s: is given more than %d times; a list with commas takes more",
			 syntax->command, argument->name, text, MOST_TEXTS);
		return false;
	}
	argument->texts->text[argument->texts->count++] = text;
	return true;
}

static bool take_value(const struct syntax *syntax, const struct argument *argument, const char *text)
{
	if (argument->flag) {
		*argument->flag = true;
		return true;
	}
	if (argument->number)
		return take_number(syntax, argument, text);
	if (*text == '\0' && !argument->empty) {
		complain("%s: --%s: expected a value, found an empty one", syntax->command, argument->name);
		return false;
	}
	if (argument->texts)
		return gather(syntax, argument, text);
	*argument->text = text;
	return true;
}

/* ---- options */

/* The options as getopt_long() wants them, with --help and the end. */
static void make_options(const struct syntax *syntax, struct option options[MOST_ARGUMENTS + 2])
{
	const struct option help = { "help", no_argument, NULL, HELP }, end = { NULL, 0, NULL, 0 };

	for (unsigned i = 0; i < syntax->count; i++) {
		options[i].name = syntax->argument[i].name;
		options[i].has_arg = syntax->argument[i].flag ? no_argument : required_argument;
		options[i].flag = NULL;
		options[i].val = FIRST + (int)i;
	}
	options[syntax->count] = help;
	options[syntax->count + 1] = end;
}

/* What getopt_long() could not take: `given` is ':' for an option without its value, else '?'. */
static void complain_of_option(const struct syntax *syntax, int given, const char *option)
{
	const int named = optopt - FIRST;

	if (given == ':')
		complain("%s: --%s: expected a value after it", syntax->command, syntax->argument[named].name);
	else if (named >= 0 && named < (int)syntax->count)
		complain("%s: --%s: takes no value", syntax->command, syntax->argument[named].name);
	else if (optopt != 0 && optopt != HELP)
		complain("%s: -%c: no such option (ream %s --help)", syntax->command, optopt, syntax->command);
	else
		complain("%s: %s: no such option (ream %s --help)", syntax->command, option, syntax->command);
}

/* The option that getopt_long() took, as it was given; its value, if it is an argument of its own, is last. */
static const char *as_given(char **argv)
{
	return optarg && optarg == argv[optind - 1] ? argv[optind - 2] : argv[optind - 1];
}

/* Was it named in full? */
static bool in_full(const struct argument *argument, const char *given)
{
	const size_t len = strlen(argument->name);

	return strncmp(given + 2, argument->name, len) == 0 && (given[2 + len] == '\0' || given[2 + len] == '=');
}

/* Takes the option of argument i, as getopt_long() found it. */
static bool take_option(const struct syntax *syntax, unsigned i, const char *given, bool *before)
{
	const struct argument *argument = &syntax->argument[i];

	if (!in_full(argument, given)) {
		complain("%s: %s: no such option; --%s has to be named in full", syntax->command, given,
			 argument->name);
		return false;
	}
	if (*before && !argument->texts) {
		complain("%s: --%s: is given twice; expected it once", syntax->command, argument->name);
		return false;
	}
	*before = true;
	return take_value(syntax, argument, optarg);
}

static bool take_options(const struct syntax *syntax, int argc, char **argv, bool *help)
{
	struct option options[MOST_ARGUMENTS + 2];
	bool before[MOST_ARGUMENTS] = { false };
	int found;

	make_options(syntax, options);
	opterr = 0;
	while ((found = getopt_long(argc, argv, ":h", options, NULL)) != -1 && found != HELP) {
		if (found == ':' || found == '?') {
			complain_of_option(syntax, found, argv[optind - 1]);
			return false;
		}
		if (!take_option(syntax, (unsigned)(found - FIRST), as_given(argv), &before[found - FIRST]))
			return false;
	}
	*help = found == HELP;
	return true;
}

enum parsed args_parse(const struct syntax *syntax, int argc, char **argv, const char **file)
{
	const int files = syntax->file ? 1 : 0;
	bool help;

	*file = NULL;
	if (!take_options(syntax, argc, argv, &help))
		return PARSED_WRONG;
	if (help) {
		fputs(syntax->help, stdout);
		return PARSED_HELP;
	}
	if (argc - optind > files) {
		complain("%s: %s: one argument too many (ream %s --help)", syntax->command, argv[optind + files],
			 syntax->command);
		return PARSED_WRONG;
	}
	if (argc - optind < files) {
		complain("%s: no file; expected %s as the last argument", syntax->command, syntax->file);
		return PARSED_WRONG;
	}
	if (syntax->file)
		*file = argv[optind];
	return PARSED;
}
