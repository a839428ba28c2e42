/* Where a file is to be written: over one that is locked so long, or where there is none. */
#include "target.h"

#include "lock.h"
#include "replace.h"

#include <errno.h>

enum outcome target_open_existing(struct target *target, const char *path)
{
    *target = (struct target){.path = path, .exists = true};
    return lock_open(&target->file, path);
}

/* Something stands there, or cannot be looked at. */
static bool exists(const char *path)
{
    struct stat status;

    return stat(path, &status) == 0 || errno != ENOENT;
}

enum outcome target_open(struct target *target, const char *path)
{
    if (exists(path))
        return target_open_existing(target, path);
    *target = (struct target){.path = path};
    return DONE;
}

/* Opens what stands there, without its lock. */
static enum outcome check_existing(const char *path)
{
    struct file file;
    enum outcome outcome = file_open_writable(&file, path);

    if (outcome == DONE)
        file_close(&file);
    return outcome;
}

/* No file can get an empty name, or that of a link which leads to none. */
static enum outcome check_name(const char *path)
{
    struct stat status;

    if (*path == '\0' || lstat(path, &status) == 0)
        return tell_failure(path, "no file of this name can be made");
    return DONE;
}

enum outcome target_check(const char *path)
{
    bool there = exists(path);
    enum outcome outcome = there ? check_existing(path) : check_name(path);

    return outcome == DONE ? replace_check(path, there) : outcome;
}

enum outcome target_write(const struct target *target, const uint8_t *bytes, size_t size)
{
    return replace_file(target->path, target->exists ? &target->file.status : NULL, bytes, size);
}

void target_close(const struct target *target)
{
    if (target->exists)
        file_close(&target->file);
}

enum outcome write_file(const char *path, const uint8_t *bytes, size_t size)
{
    struct target target;
    enum outcome outcome = target_open(&target, path);

    if (outcome != DONE)
        return outcome;
    outcome = target_write(&target, bytes, size);
    target_close(&target);
    return outcome;
}
