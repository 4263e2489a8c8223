/*
 * The arguments of a command: options, each with two dashes before its name and its value after it ("--seed 7"
 * or "--seed=7"), and at most one file. "--" ends the options. The C library's getopt_long() takes them apart;
 * shortened names, which it would take, are refused, as they can turn into other options' when one is added. An
 * option is given once, unless it gathers all its values.
 */
#ifndef ARGS_H
#define ARGS_H

#include <stdbool.h>
#include <stdint.h>

/* All values of an option that may be given several times. */
enum { MOST_TEXTS = 256 };

struct texts {
	const char *text[MOST_TEXTS];
	unsigned count;
};

/* An option. One of the four pointers is set and says where its value goes; what is there before is what
 * stays without the option. */
struct argument {
	const char *name;	/* without its dashes */
	bool *flag;
	const char **text;
	struct texts *texts;
	bool empty;		/* a text may be empty */
	uint64_t *number;
	uint64_t least, most;	/* of a number */
	uint64_t multiple;	/* of which a number has to be one; 0 where any is taken */
	const char *refusal;	/* that a number outside comes to; NULL where the library does not see it */
};

enum { MOST_ARGUMENTS = 16 };

struct syntax {
	const char *command;
	const char *help;
	const char *file;	/* what its file is called; NULL where it takes none */
	struct argument argument[MOST_ARGUMENTS];
	unsigned count;
};

enum parsed { PARSED, PARSED_HELP, PARSED_WRONG };

/* Adds an option. */
void args_add(struct syntax *syntax, struct argument argument);

/* Takes the arguments apart, of which the first is the command's name. Where -h or --help is among them the help
 * is printed. */
enum parsed args_parse(const struct syntax *syntax, int argc, char **argv, const char **file);

/* A whole number at the start of a text. */
struct numeral {
	uint64_t value;
	bool outside;		/* it is negative or has more than 64 bits, and has no value */
	const char *end;	/* what follows it; NULL where there is no number */
};

struct numeral args_numeral(const char *text);

#endif
