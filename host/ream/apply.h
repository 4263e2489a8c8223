/* A plan, carried out on a copy of the dump that it was made for, and its pages as files. */
#ifndef APPLY_H
#define APPLY_H

#include <stdbool.h>

#include "args.h"
#include "dump.h"
#include "json.h"
#include "output.h"
#include "pages.h"
#include "plan.h"

/* What is asked for. */
struct applying {
	const char *out;	/* the copy of the dump; NULL where none is wanted */
	const char *status_out;	/* the status file that belongs to it; NULL where none is wanted */
	const char *pages;	/* the folder for the plan's pages; NULL where none are wanted */
	bool force;		/* replaces files that are there already */
};

/* What the copy is made from. */
struct copy {
	const struct dump *dump;
	const struct plan *plan;
	const char *path;
};

struct application {
	struct copy copy;
	struct pages pages;
	struct outputs outputs;
	struct region after;	/* the region with the plan carried out */
};

/* The lines of a command's help on these options, but for --apply. */
#define APPLY_HELP \
	"  --status-out FILE     with --apply: writes the status file that belongs to it\n" \
	"  --pages DIR           writes the page of each step but the erases, as a file\n" \
	"                        in the folder DIR\n" \
	"  --force               replaces files that are there already\n"

/* Adds the options: --apply, --status-out, --pages and --force. */
void apply_options(struct syntax *syntax, struct applying *applying);

/* Is --apply there, if an option of a command is told that needs it? Complains where it is not. */
bool apply_beside(const struct applying *applying, const char *command, const char *option, bool told);

/* Judges what is asked for and begins its files; an application begun is finished or dropped. */
bool apply_begin(struct application *application, const struct applying *applying, const struct dump *dump,
		 const struct plan *plan);

/* Writes the files. */
bool apply_finish(struct application *application);

/* Tells what was written, and the pair that is there then. */
void apply_print(const struct application *application);
void apply_write(struct json *json, const struct application *application);

/* Ends it, once what was written has been told. */
void apply_end(struct application *application, bool written);

#endif
