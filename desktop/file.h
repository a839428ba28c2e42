/* A file that is read: a regular one, or standard input. */
#ifndef FILE_H
#define FILE_H

#include "tell.h"

#include <stdbool.h>
#include <stddef.h>
#include <stdint.h>
#include <sys/stat.h>

struct file {
    const char *path;
    int descriptor;
    struct stat status; /* when it was opened */
    bool stream;        /* standard input, whose size is not known */
};

/* Whether the path stands for standard input: "-". */
bool file_is_standard(const char *path);

/*
 * Opens a regular file to be read, or standard input; anything else is told and fails, without waiting for it. Where it
 * is done, file_close is owed.
 */
enum outcome file_open(struct file *file, const char *path);

/* The same, but only a regular file that the user may write too. */
enum outcome file_open_writable(struct file *file, const char *path);

/* Whether both are of one file. */
bool file_is_same(const struct stat *one, const struct stat *other);

/* The next bytes, so many; of standard input as many as there are. A regular file that ends before them fails. */
enum outcome file_read(const struct file *file, uint8_t *bytes, size_t size, size_t *count);

void file_close(const struct file *file);

/* The size of the file when it was opened, or the limit where that is less, or the size is not known. */
size_t file_size_up_to(const struct file *file, size_t limit);

/* A file's bytes, all in memory. */
struct contents {
    const char *path;
    uint8_t *bytes; /* never null, not even with size 0 */
    size_t size;
};

/* Reads a file, or so much of it. Where it is done, free(contents->bytes) is owed. */
enum outcome file_load(struct contents *contents, const char *path, size_t limit);

#endif
