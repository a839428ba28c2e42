/* A file replaced or made, whole or not at all. */
#include "replace.h"

#include "file.h"
#include "rights.h"
#include "signals.h"

#include <errno.h>
#include <fcntl.h>
#include <stdio.h>
#include <stdlib.h>
#include <string.h>
#include <unistd.h>

#define TEMPORARY_NAME ".hsc-XXXXXX"

struct replacement {
    const char *path;       /* as the user gave it */
    const struct stat *old; /* the status of the file that is replaced; NULL where there is none */
    char *name;             /* the path, with every symbolic link followed where the file exists */
    char *folder;
    char *temporary;
    int folder_descriptor;
    int descriptor; /* of the temporary file */
    struct rights rights;
    struct signals signals;
};

static bool write_all(int descriptor, const uint8_t *bytes, size_t size)
{
    size_t done = 0;

    while (done < size) {
        ssize_t count = write(descriptor, bytes + done, size - done);
        if (count > 0)
            done += (size_t)count;
        else if (count == 0 || errno != EINTR)
            return false;
    }
    return true;
}

/* Writes the temporary file, brings it to the disk and closes it, whatever fails. */
static enum outcome write_temporary(struct replacement *replacement, const uint8_t *bytes, size_t size)
{
    enum outcome outcome = DONE;

    if (!write_all(replacement->descriptor, bytes, size))
        outcome = tell_errno(replacement->path, "not written, its temporary file cannot be written");
    else if (!rights_give(&replacement->rights, replacement->descriptor, replacement->old))
        outcome = tell_errno(replacement->path, "not written, its mode cannot be kept");
    else if (fsync(replacement->descriptor) != 0)
        outcome = tell_errno(replacement->path, "not written, its temporary file cannot be brought to the disk");
    if (close(replacement->descriptor) != 0 && outcome == DONE)
        outcome = tell_errno(replacement->path, "not written, its temporary file cannot be closed");
    return outcome;
}

static bool same_time(const struct timespec *a, const struct timespec *b)
{
    return a->tv_sec == b->tv_sec && a->tv_nsec == b->tv_nsec;
}

/* The file is still as it was when it was locked. */
static enum outcome unchanged(const struct replacement *replacement)
{
    const struct stat *old = replacement->old;
    struct stat now;

    if (lstat(replacement->name, &now) != 0)
        return tell_errno(replacement->path, "not written, its status cannot be read");
    if (!file_is_same(&now, old) || now.st_size != old->st_size || !same_time(&now.st_mtim, &old->st_mtim) ||
        !same_time(&now.st_ctim, &old->st_ctim))
        return tell_failure(replacement->path, "not written, it was changed since it was read");
    return DONE;
}

/* Gives the temporary file a name that nothing has; a file system without links has to rename it. */
static int name_new(const struct replacement *replacement)
{
    if (link(replacement->temporary, replacement->name) != 0)
        return errno == EEXIST ? -1 : rename(replacement->temporary, replacement->name);
    if (unlink(replacement->temporary) != 0)
        tell_errno(replacement->temporary, "cannot be removed");
    return 0;
}

/* The last look, and the one step that changes anything. */
static enum outcome put_in_place(const struct replacement *replacement)
{
    enum outcome outcome = replacement->old == NULL ? DONE : unchanged(replacement);
    int answer;

    if (outcome != DONE)
        return outcome;
    if (signals_came(&replacement->signals))
        return tell_failure(replacement->path, "not written, a signal came first");
    if (replacement->old == NULL)
        answer = name_new(replacement);
    else
        answer = rename(replacement->temporary, replacement->name);
    if (answer != 0)
        return tell_errno(replacement->path, "not written, its temporary file cannot be given its name");
    return DONE;
}

/* The temporary file is in its place, or gone. */
static enum outcome write_in_folder(struct replacement *replacement, const uint8_t *bytes, size_t size)
{
    enum outcome outcome;

    replacement->descriptor = mkstemp(replacement->temporary);
    if (replacement->descriptor < 0)
        return tell_errno(replacement->path, "not written, no temporary file can be made in its folder");
    outcome = write_temporary(replacement, bytes, size);
    if (outcome == DONE)
        outcome = put_in_place(replacement);
    if (outcome != DONE && unlink(replacement->temporary) != 0)
        tell_errno(replacement->temporary, "cannot be removed");
    return outcome;
}

/* What is not sure, or not as it was, now that the file has its name. */
static enum outcome finish(const struct replacement *replacement)
{
    enum outcome outcome = DONE;

    if (fsync(replacement->folder_descriptor) != 0)
        outcome = tell_errno(replacement->path, "written, but its folder cannot be brought to the disk");
    rights_tell(&replacement->rights, replacement->path);
    return outcome;
}

/* Signals stay held once the file has its name. */
static enum outcome write_held(struct replacement *replacement, const uint8_t *bytes, size_t size)
{
    enum outcome outcome;

    if (signals_hold(&replacement->signals) != 0)
        return tell_errno(replacement->path, "not written, signals cannot be held");
    outcome = write_in_folder(replacement, bytes, size);
    if (outcome == DONE)
        return finish(replacement);
    if (signals_release(&replacement->signals) != 0)
        tell_errno(replacement->path, "signals cannot be released");
    return outcome;
}

/* Opened before anything is written: what cannot be brought to the disk is not begun. */
static enum outcome with_folder(struct replacement *replacement, const uint8_t *bytes, size_t size)
{
    enum outcome outcome;

    replacement->folder_descriptor = open(replacement->folder, O_RDONLY | O_DIRECTORY | O_CLOEXEC);
    if (replacement->folder_descriptor < 0)
        return tell_errno(replacement->path, "not written, its folder cannot be opened");
    outcome = write_held(replacement, bytes, size);
    (void)close(replacement->folder_descriptor);
    return outcome;
}

/* The folder, and the temporary file's name in it. False: no memory. */
static bool name_places(struct replacement *replacement)
{
    const char *slash = strrchr(replacement->name, '/');
    int length = slash == NULL ? 0 : (int)(slash - replacement->name) + 1;
    size_t room = (size_t)length + sizeof "." + sizeof TEMPORARY_NAME;

    replacement->folder = malloc(room);
    replacement->temporary = malloc(room);
    if (replacement->folder == NULL || replacement->temporary == NULL)
        return false;
    snprintf(replacement->folder, room, "%.*s.", length, replacement->name);
    snprintf(replacement->temporary, room, "%.*s" TEMPORARY_NAME, length, replacement->name);
    return true;
}

/* Names what is to be written. free_names is owed, whatever fails. */
static enum outcome find_names(struct replacement *replacement, const char *path, bool exists)
{
    *replacement = (struct replacement){.path = path, .name = exists ? realpath(path, NULL) : strdup(path)};
    if (replacement->name == NULL)
        return tell_errno(path, "not written, its path cannot be resolved");
    if (!name_places(replacement))
        return tell_errno(path, "not written, no memory for its path");
    return DONE;
}

static void free_names(const struct replacement *replacement)
{
    free(replacement->temporary);
    free(replacement->folder);
    free(replacement->name);
}

enum outcome replace_file(const char *path, const struct stat *old, const uint8_t *bytes, size_t size)
{
    struct replacement replacement;
    enum outcome outcome = find_names(&replacement, path, old != NULL);

    replacement.old = old;
    if (outcome == DONE)
        outcome = with_folder(&replacement, bytes, size);
    free_names(&replacement);
    return outcome;
}

enum outcome replace_check(const char *path, bool exists)
{
    struct replacement replacement;
    enum outcome outcome = find_names(&replacement, path, exists);

    if (outcome == DONE && access(replacement.folder, W_OK | X_OK) != 0)
        outcome = tell_errno(path, "not written, no temporary file can be made in its folder");
    free_names(&replacement);
    return outcome;
}
