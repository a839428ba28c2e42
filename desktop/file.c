/* A file that is read: a regular one, or standard input. */
#include "file.h"

#include <errno.h>
#include <fcntl.h>
#include <stdlib.h>
#include <string.h>
#include <unistd.h>

bool file_is_standard(const char *path)
{
    return strcmp(path, "-") == 0;
}

static enum outcome read_status(struct file *file)
{
    if (fstat(file->descriptor, &file->status) != 0)
        return tell_errno(file->path, "status cannot be read");
    return DONE;
}

static enum outcome open_regular(struct file *file, const char *path, int flags)
{
    enum outcome outcome;

    /* O_NONBLOCK: a FIFO is opened at once, and then found not to be regular. */
    *file = (struct file){.path = path, .descriptor = open(path, flags | O_CLOEXEC | O_NOCTTY | O_NONBLOCK)};
    if (file->descriptor < 0)
        return tell_errno(path, "cannot be opened");
    outcome = read_status(file);
    if (outcome == DONE && !S_ISREG(file->status.st_mode))
        outcome = tell_failure(path, "not a regular file");
    if (outcome != DONE)
        file_close(file);
    return outcome;
}

enum outcome file_open(struct file *file, const char *path)
{
    if (!file_is_standard(path))
        return open_regular(file, path, O_RDONLY);
    *file = (struct file){.path = "standard input", .descriptor = STDIN_FILENO, .stream = true};
    return read_status(file);
}

enum outcome file_open_writable(struct file *file, const char *path)
{
    return open_regular(file, path, O_RDWR);
}

bool file_is_same(const struct stat *one, const struct stat *other)
{
    return one->st_dev == other->st_dev && one->st_ino == other->st_ino;
}

enum outcome file_read(const struct file *file, uint8_t *bytes, size_t size, size_t *count)
{
    *count = 0;
    while (*count < size) {
        ssize_t moved = read(file->descriptor, bytes + *count, size - *count);
        if (moved == 0)
            return file->stream ? DONE : tell_failure(file->path, "became shorter while it was read");
        if (moved > 0)
            *count += (size_t)moved;
        else if (errno != EINTR)
            return tell_errno(file->path, "cannot be read");
    }
    return DONE;
}

void file_close(const struct file *file)
{
    /* Only read from: a failing close loses nothing. Standard input stays. */
    if (!file->stream)
        (void)close(file->descriptor);
}

size_t file_size_up_to(const struct file *file, size_t limit)
{
    return !file->stream && file->status.st_size < (off_t)limit ? (size_t)file->status.st_size : limit;
}

enum outcome file_load(struct contents *contents, const char *path, size_t limit)
{
    struct file file;
    enum outcome outcome = file_open(&file, path);
    size_t size;

    if (outcome != DONE)
        return outcome;
    size = file_size_up_to(&file, limit);
    *contents = (struct contents){.path = file.path, .bytes = malloc(size + 1)};
    if (contents->bytes == NULL) {
        outcome = tell_errno(file.path, "no memory for its bytes");
    } else {
        outcome = file_read(&file, contents->bytes, size, &contents->size);
        if (outcome != DONE)
            free(contents->bytes);
    }
    file_close(&file);
    return outcome;
}
