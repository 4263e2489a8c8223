/* Output files. */
#define _POSIX_C_SOURCE 200809L

#include "output.h"

#include <errno.h>
#include <inttypes.h>
#include <stdlib.h>
#include <string.h>
#include <sys/stat.h>
#include <unistd.h>

#include "temporary.h"
#include "tool.h"

bool output_put(FILE *stream, const char *path, uint64_t offset, const uint8_t *bytes, size_t len)
{
	if (fseeko(stream, (off_t)offset, SEEK_SET) == 0 && fwrite(bytes, 1, len, stream) == len)
		return true;
	complain("%s: cannot be written at offset %" PRIu64 ": %s", path, offset, strerror(errno));
	return false;
}

void output_sync(FILE *stream)
{
	if (fflush(stream) == 0)
		fsync(fileno(stream));
}

void outputs_add(struct outputs *outputs, struct output output)
{
	if (!output.path)
		return;
	outputs->temporary[outputs->count] = NULL;
	outputs->stream[outputs->count] = NULL;
	outputs->output[outputs->count++] = output;
}

/* ---- places */

/* Where a path leads: a file that is there, or a name in a folder. */
struct place {
	bool there;
	struct stat file;	/* where it is there */
	struct stat folder;
	const char *name;
};

/* Finds the place. False, with errno set, where there is no such folder. */
static bool find_place(struct place *place, const char *path)
{
	const char *slash = strrchr(path, '/');
	const size_t len = slash ? (size_t)(slash - path) : 0;
	char *folder = malloc(len + 2);
	bool found;

	if (!folder)
		return false;
	memcpy(folder, path, len);
	strcpy(folder + len, slash && len == 0 ? "/" : "");
	place->name = slash ? slash + 1 : path;
	place->there = stat(path, &place->file) == 0;
	found = stat(slash ? folder : ".", &place->folder) == 0;
	free(folder);
	return found;
}

static bool same_stat(const struct stat *left, const struct stat *right)
{
	return left->st_dev == right->st_dev && left->st_ino == right->st_ino;
}

static bool same_place(const struct place *left, const struct place *right)
{
	if (left->there && right->there && same_stat(&left->file, &right->file))
		return true;
	return same_stat(&left->folder, &right->folder) && strcmp(left->name, right->name) == 0;
}

/* ---- judging */

/* Is it none of the files that were read? */
static bool not_read(const char *path, const struct place *place, const struct file_id *read, unsigned reads)
{
	for (unsigned i = 0; i < reads; i++) {
		if (!place->there || place->file.st_dev != read[i].device || place->file.st_ino != read[i].number)
			continue;
		complain("%s: is the file that is read, %s; expected another to write", path, read[i].name);
		return false;
	}
	return true;
}

/* Is it none of the outputs before it? */
static bool no_other(const struct outputs *outputs, unsigned i, const struct place *place)
{
	for (unsigned j = 0; j < i; j++) {
		struct place other;

		if (!find_place(&other, outputs->output[j].path) || !same_place(place, &other))
			continue;
		complain("%s: is named for two files to write, the other time as %s", outputs->output[i].path,
			 outputs->output[j].path);
		return false;
	}
	return true;
}

/* May it be written over, if it is there? */
static bool may_replace(const char *path, bool force)
{
	struct stat found;

	if (lstat(path, &found) != 0)
		return true;
	if (!S_ISREG(found.st_mode)) {
		complain("%s: is there and is no regular file", path);
		return false;
	}
	if (!force)
		complain("%s: is there already; --force replaces it", path);
	return force;
}

static bool judge(const struct outputs *outputs, unsigned i, const struct file_id *read, unsigned reads,
		  bool force)
{
	const char *path = outputs->output[i].path;
	struct place place;

	if (!find_place(&place, path)) {
		complain("%s: cannot be written: %s", path, strerror(errno));
		return false;
	}
	return not_read(path, &place, read, reads) && no_other(outputs, i, &place) && may_replace(path, force);
}

/* ---- writing */

static bool make(struct outputs *outputs, unsigned i)
{
	outputs->temporary[i] = temporary_make(outputs->output[i].path, &outputs->stream[i]);
	if (!outputs->temporary[i])
		complain("%s: cannot be written: %s", outputs->output[i].path, strerror(errno));
	return outputs->temporary[i] != NULL;
}

bool outputs_begin(struct outputs *outputs, const struct file_id *read, unsigned reads, bool force)
{
	bool well = true;

	for (unsigned i = 0; i < outputs->count && well; i++)
		well = judge(outputs, i, read, reads, force);
	for (unsigned i = 0; i < outputs->count && well; i++)
		well = make(outputs, i);
	if (!well)
		outputs_drop(outputs);
	return well;
}

/* Writes one under its other name. */
static bool write_one(struct outputs *outputs, unsigned i)
{
	const struct output *output = &outputs->output[i];
	FILE *stream = outputs->stream[i];
	const bool filled = output->fill(stream, output->from);
	bool written;

	errno = 0;
	written = fflush(stream) == 0 && !ferror(stream) && fsync(fileno(stream)) == 0;
	if (filled && !written)
		complain("%s: cannot be written: %s", output->path,
			 errno != 0 ? strerror(errno) : "a write failed");
	outputs->stream[i] = NULL;
	fclose(stream);
	return filled && written;
}

/* Gives one its own name. */
static bool give_name(struct outputs *outputs, unsigned i)
{
	if (!temporary_keep(outputs->temporary[i], outputs->output[i].path)) {
		complain("%s: cannot be written: %s", outputs->output[i].path, strerror(errno));
		return false;
	}
	free(outputs->temporary[i]);
	outputs->temporary[i] = NULL;
	return true;
}

bool outputs_finish(struct outputs *outputs)
{
	bool written = true;

	for (unsigned i = 0; i < outputs->count && written; i++)
		written = write_one(outputs, i);
	temporary_begin_quiet();
	for (unsigned i = 0; i < outputs->count && written; i++)
		written = give_name(outputs, i);
	temporary_end_quiet();
	if (!written)
		outputs_drop(outputs);
	return written;
}

void outputs_drop(struct outputs *outputs)
{
	for (unsigned i = 0; i < outputs->count; i++) {
		if (outputs->stream[i])
			fclose(outputs->stream[i]);
		if (outputs->temporary[i])
			temporary_remove(outputs->temporary[i]);
		free(outputs->temporary[i]);
		outputs->stream[i] = NULL;
		outputs->temporary[i] = NULL;
	}
}

/* ---- telling */

void outputs_print(const struct outputs *outputs)
{
	for (unsigned i = 0; i < outputs->count; i++)
		printf("%s written: %s\n", outputs->output[i].what, outputs->output[i].path);
}

void outputs_write(struct json *json, const struct outputs *outputs)
{
	json_list(json, "written");
	for (unsigned i = 0; i < outputs->count; i++) {
		json_object(json, NULL);
		json_text(json, "what", outputs->output[i].what);
		json_text(json, "path", outputs->output[i].path);
		json_end(json);
	}
	json_end(json);
}
