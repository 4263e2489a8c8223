/* Files that are not whole yet. */
#define _XOPEN_SOURCE 700

#include "temporary.h"

#include <errno.h>
#include <signal.h>
#include <stdlib.h>
#include <string.h>
#include <sys/stat.h>
#include <unistd.h>

/* The signals that end the tool. */
static const int endings[] = { SIGHUP, SIGINT, SIGQUIT, SIGPIPE, SIGTERM, SIGXCPU, SIGXFSZ };

/* The files and folders to remove, for the handler. Changed only while no signal is taken. */
static const char *volatile remembered[MOST_TEMPORARY];
static bool handled;		/* the handler is set */
static unsigned quiet;		/* how often no signal is to be taken */

/* ---- signals */

static sigset_t ending_signals(void)
{
	sigset_t set;

	sigemptyset(&set);
	for (unsigned i = 0; i < sizeof(endings) / sizeof(endings[0]); i++)
		sigaddset(&set, endings[i]);
	return set;
}

/* Removes what is remembered, files before the folders that they stand in, and lets the signal end the tool. */
static void end_by(int signal_number)
{
	for (unsigned i = 0; i < MOST_TEMPORARY; i++)
		if (remembered[i])
			unlink(remembered[i]);
	for (unsigned i = 0; i < MOST_TEMPORARY; i++)
		if (remembered[i])
			rmdir(remembered[i]);
	raise(signal_number);
}

/* Signals that are ignored stay so. */
static void handle_signals(void)
{
	struct sigaction action, old;

	if (handled)
		return;
	handled = true;
	memset(&action, 0, sizeof(action));
	action.sa_handler = end_by;
	action.sa_mask = ending_signals();
	action.sa_flags = SA_RESETHAND;
	for (unsigned i = 0; i < sizeof(endings) / sizeof(endings[0]); i++)
		if (sigaction(endings[i], NULL, &old) == 0 && old.sa_handler != SIG_IGN)
			sigaction(endings[i], &action, NULL);
}

void temporary_begin_quiet(void)
{
	const sigset_t set = ending_signals();

	handle_signals();
	if (quiet++ == 0)
		sigprocmask(SIG_BLOCK, &set, NULL);
}

void temporary_end_quiet(void)
{
	const sigset_t set = ending_signals();

	if (--quiet == 0)
		sigprocmask(SIG_UNBLOCK, &set, NULL);
}

/* Puts `to` in the place of `from` among those remembered; NULL is a free place. */
static bool replace(const char *from, const char *to)
{
	for (unsigned i = 0; i < MOST_TEMPORARY; i++) {
		if (from ? !remembered[i] || strcmp(remembered[i], from) != 0 : remembered[i] != NULL)
			continue;
		remembered[i] = to;
		return true;
	}
	errno = EMFILE;
	return false;
}

/* ---- files */

/* Makes the file of a name that ends in XXXXXX, as the caller's umask has it. */
static int make_file(char *name)
{
	const mode_t mask = umask(0);
	int file;

	umask(mask);
	file = mkstemp(name);
	if (file < 0 || fchmod(file, 0666 & ~mask) == 0)
		return file;
	close(file);
	unlink(name);
	return -1;
}

/* Makes and remembers the file of a name that ends in XXXXXX. */
static FILE *make_remembered(char *name)
{
	const int file = make_file(name);
	FILE *stream = file >= 0 && replace(NULL, name) ? fdopen(file, "wb") : NULL;

	if (stream || file < 0)
		return stream;
	replace(name, NULL);
	close(file);
	unlink(name);
	return NULL;
}

char *temporary_make(const char *path, FILE **stream)
{
	static const char ending[] = ".XXXXXX";
	char *name = malloc(strlen(path) + sizeof(ending));

	*stream = NULL;
	if (!name)
		return NULL;
	strcpy(name, path);
	strcat(name, ending);
	temporary_begin_quiet();
	*stream = make_remembered(name);
	temporary_end_quiet();
	if (*stream)
		return name;
	free(name);
	return NULL;
}

bool temporary_keep(const char *name, const char *path)
{
	bool kept;

	temporary_begin_quiet();
	kept = rename(name, path) == 0;
	if (kept)
		replace(name, NULL);
	temporary_end_quiet();
	return kept;
}

void temporary_remove(const char *name)
{
	temporary_begin_quiet();
	if (unlink(name) != 0)
		rmdir(name);
	replace(name, NULL);
	temporary_end_quiet();
}

bool temporary_folder(const char *path)
{
	bool made;

	temporary_begin_quiet();
	made = mkdir(path, 0777) == 0;
	if (made && !replace(NULL, path)) {
		rmdir(path);
		made = false;
	}
	temporary_end_quiet();
	return made;
}

void temporary_keep_folder(const char *path)
{
	temporary_begin_quiet();
	replace(path, NULL);
	temporary_end_quiet();
}

FILE *temporary_nameless(const char **folder)
{
	static const char ending[] = "/ream.XXXXXX";
	const char *told = getenv("TMPDIR");
	char *name;
	FILE *stream = NULL;
	int file;

	*folder = told && *told ? told : "/tmp";
	name = malloc(strlen(*folder) + sizeof(ending));
	if (!name)
		return NULL;
	strcpy(name, *folder);
	strcat(name, ending);
	temporary_begin_quiet();
	file = mkstemp(name);
	if (file >= 0) {
		unlink(name);
		stream = fdopen(file, "w+b");
	}
	temporary_end_quiet();
	free(name);
	if (!stream && file >= 0)
		close(file);
	return stream;
}
