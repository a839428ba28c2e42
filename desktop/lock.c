/* A file that is read to be replaced, and locked so long. */
#include "lock.h"

#include <errno.h>
#include <fcntl.h>
#include <stdio.h>
#include <unistd.h>

/* Locks the whole file. A wait is told once, where someone is there to read it. 0, or -1 with errno. */
static int lock(const struct file *file, bool *told)
{
    struct flock whole = {.l_type = F_WRLCK, .l_whence = SEEK_SET};
    int answer = fcntl(file->descriptor, F_SETLK, &whole);

    if (answer == 0 || (errno != EACCES && errno != EAGAIN))
        return answer;
    if (!*told && isatty(STDERR_FILENO)) {
        fprintf(stderr, "hsc: %s: waiting until another program has written it\n", file->path);
        *told = true;
    }
    do
        answer = fcntl(file->descriptor, F_SETLKW, &whole);
    while (answer != 0 && errno == EINTR);
    return answer;
}

/* Locks the open file and reads its status anew; here: the path still leads to it. */
static enum outcome lock_and_look(struct file *file, bool *told, bool *here)
{
    struct stat now;

    if (lock(file, told) != 0)
        return tell_errno(file->path, "cannot be locked");
    if (fstat(file->descriptor, &file->status) != 0)
        return tell_errno(file->path, "status cannot be read");
    if (stat(file->path, &now) != 0)
        return tell_errno(file->path, "the file of this name cannot be found again");
    *here = file_is_same(&now, &file->status);
    return DONE;
}

enum outcome lock_open(struct file *file, const char *path)
{
    bool told = false;

    for (;;) {
        enum outcome outcome = file_open_writable(file, path);
        bool here = false;

        if (outcome != DONE)
            return outcome;
        outcome = lock_and_look(file, &told, &here);
        if (here)
            return DONE;
        file_close(file);
        if (outcome != DONE)
            return outcome;
    }
}
