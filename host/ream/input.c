/* Input. */
#define _POSIX_C_SOURCE 200809L

#include "input.h"

#include <errno.h>
#include <inttypes.h>
#include <string.h>
#include <sys/stat.h>
#include <unistd.h>

#include "progress.h"
#include "temporary.h"
#include "tool.h"

enum { CHUNK = 65536, MEGABYTE = 1000000 };

/* Copies all of a pipe to a file, and counts the bytes. False, with a complaint, where that fails. */
static bool pour(FILE *from, FILE *to, const char *name, const char *folder, uint64_t *size)
{
	struct progress progress = progress_begin("reading", 0, "MB");
	uint8_t bytes[CHUNK];
	size_t len;
	bool kept = true;

	*size = 0;
	while (kept && (len = fread(bytes, 1, sizeof(bytes), from)) > 0) {
		kept = fwrite(bytes, 1, len, to) == len;
		*size += len;
		progress_at(&progress, *size / MEGABYTE);
	}
	kept = kept && fflush(to) == 0;
	progress_end(&progress);
	if (!kept)
		complain("%s: cannot be kept in %s, at offset %" PRIu64 ": %s", name, folder, *size,
			 strerror(errno));
	else if (ferror(from))
		complain("%s: cannot be read at offset %" PRIu64, name, *size);
	return kept && !ferror(from);
}

/* Takes a pipe's bytes into a file without a name, which takes its place. */
static bool keep_pipe(struct input *input)
{
	const char *folder;
	FILE *file = temporary_nameless(&folder);
	bool kept;

	if (!file) {
		complain("%s: cannot be kept in %s: %s", input->id.name, folder, strerror(errno));
		return false;
	}
	kept = pour(input->stream, file, input->id.name, folder, &input->size);
	if (input->stream != stdin)
		fclose(input->stream);
	input->stream = file;
	return kept;
}

/* Takes in what kind of file was opened. */
static bool take_kind(struct input *input)
{
	struct stat found;

	if (fstat(fileno(input->stream), &found) != 0) {
		complain("%s: cannot be read: %s", input->id.name, strerror(errno));
		return false;
	}
	input->id.device = found.st_dev;
	input->id.number = found.st_ino;
	input->size = (uint64_t)found.st_size;
	if (S_ISREG(found.st_mode))
		return true;
	if (S_ISFIFO(found.st_mode) || S_ISSOCK(found.st_mode))
		return keep_pipe(input);
	complain("%s: expected a regular file or a pipe", input->id.name);
	return false;
}

bool input_open(struct input *input, const char *path)
{
	const bool standard = strcmp(path, "-") == 0;

	input->id.name = standard ? "standard input" : path;
	input->stream = standard ? stdin : fopen(path, "rb");
	if (!input->stream) {
		complain("%s: cannot be read: %s", path, strerror(errno));
		return false;
	}
	if (take_kind(input))
		return true;
	input_close(input);
	return false;
}

void input_close(struct input *input)
{
	if (input->stream != stdin)
		fclose(input->stream);
}

bool input_read(const struct input *input, uint64_t offset, uint8_t *bytes, size_t len)
{
	if (fseeko(input->stream, (off_t)offset, SEEK_SET) == 0 && fread(bytes, 1, len, input->stream) == len)
		return true;
	complain("%s: cannot be read at offset %" PRIu64 ", where %zu bytes were expected", input->id.name,
		 offset, len);
	return false;
}

bool input_read_whole(const char *path, uint8_t *bytes, size_t len, const char *expected, struct file_id *id)
{
	struct input input;
	bool read = false;

	if (!input_open(&input, path))
		return false;
	*id = input.id;
	if (input.size != len)
		complain("%s: ends at offset %" PRIu64 ", expected %zu bytes, %s (" REFUSED_LENGTH ")",
			 input.id.name, input.size, len, expected);
	else
		read = input_read(&input, 0, bytes, len);
	input_close(&input);
	return read;
}
