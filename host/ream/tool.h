/*
 * ream, the tool for dumps of the chips: its commands, what it exits with, and how it complains. The library's
 * answers, refusals too, go to the standard output; complaints about arguments and files go to the standard
 * error.
 */
#ifndef TOOL_H
#define TOOL_H

#include <stdint.h>

#include "json.h"

/* What the tool exits with. */
enum exit_status {
	EXIT_DONE = 0,
	EXIT_REFUSED = 1,	/* by the library */
	EXIT_WRONG = 2,		/* an argument or a file is wrong */
};

/* The commands, each with the arguments from its name on. */
enum exit_status pair_command(int argc, char **argv);
enum exit_status first_command(int argc, char **argv);
enum exit_status init_command(int argc, char **argv);
enum exit_status update_command(int argc, char **argv);
enum exit_status recover_command(int argc, char **argv);
enum exit_status page_command(int argc, char **argv);
enum exit_status boot_command(int argc, char **argv);
enum exit_status simulate_command(int argc, char **argv);

/* The refusals that an argument or a file of the wrong kind comes to, to stand in a complaint. */
#define REFUSED_LENGTH "refusal 1: a lent buffer has the wrong length"
#define REFUSED_RANGE "refusal 2: a number is outside its range"

/* Says what is wrong, in a line after "ream: ". */
void complain(const char *format, ...);

/* Prints a text after a word and a colon, broken at blanks into lines of at most 80 columns. */
void print_broken(const char *word, const char *format, ...);

/* Tells the refusal in the library's answer, with its number and in words. */
enum exit_status print_refusal(const char *what, unsigned refusal);	/* gives EXIT_REFUSED */
void write_refusal(struct json *json, unsigned refusal);	/* null where there is none */

/* The ending of a word that stands after a number. */
const char *plural(uint64_t number);

/* A size of the region, 4 to 7, as a word. */
const char *size_word(uint64_t size);

#endif
