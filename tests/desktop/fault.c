/*
 * System calls that go wrong on demand; the linker puts these in front of the program's own (--wrap).
 *
 * FAULT=CALL:N:HOW says what happens at the Nth call of CALL; there may be several, with a comma between. HOW is
 *   EIO, ENOSPC, ..   it fails with this errno
 *   KILL, STOP, TERM  the signal is raised, then the call is done
 *   DELAY             it is done a second later
 *   CUT               the file that FAULT_FILE names is cut to 100 bytes, then the call is done
 *   SHORT             this and every later read or write moves one byte
 * FAULT_CALLS names a file to which every call's name is added.
 */
#include <errno.h>
#include <fcntl.h>
#include <poll.h>
#include <signal.h>
#include <stdbool.h>
#include <stdio.h>
#include <stdlib.h>
#include <string.h>
#include <sys/stat.h>
#include <sys/types.h>
#include <time.h>
#include <unistd.h>

#define MOST_FAULTS 4

static bool short_moves;

struct name {
    const char *name;
    int number;
};

static const struct name SIGNALS[] = {{"KILL", SIGKILL}, {"STOP", SIGSTOP}, {"TERM", SIGTERM}};

static const struct name ERRORS[] = {
    {"EACCES", EACCES}, {"EEXIST", EEXIST}, {"EINTR", EINTR}, {"EINVAL", EINVAL}, {"EIO", EIO},
    {"ENOMEM", ENOMEM}, {"ENOSPC", ENOSPC}, {"EPERM", EPERM}, {"EROFS", EROFS},
};

static void abandon(const char *reason)
{
    fprintf(stderr, "fault: %s\n", reason);
    _exit(98);
}

/* Does what HOW says; true where the call is to fail. */
static bool apply(const char *how)
{
    const char *file = getenv("FAULT_FILE");

    if (strcmp(how, "SHORT") == 0) {
        short_moves = true;
        return false;
    }
    if (strcmp(how, "DELAY") == 0) {
        nanosleep(&(struct timespec){.tv_sec = 1}, NULL);
        return false;
    }
    for (size_t i = 0; i < sizeof SIGNALS / sizeof SIGNALS[0]; i++) {
        if (strcmp(how, SIGNALS[i].name) == 0) {
            raise(SIGNALS[i].number);
            return false;
        }
    }
    if (strcmp(how, "CUT") == 0) {
        if (file == NULL || truncate(file, 100) != 0)
            abandon("FAULT_FILE cannot be cut");
        return false;
    }
    for (size_t i = 0; i < sizeof ERRORS / sizeof ERRORS[0]; i++) {
        if (strcmp(how, ERRORS[i].name) == 0) {
            errno = ERRORS[i].number;
            return true;
        }
    }
    abandon("FAULT has an unknown HOW");
    return true;
}

int __real_fclose(FILE *stream);

static void record(const char *call)
{
    const char *path = getenv("FAULT_CALLS");
    FILE *file = path == NULL ? NULL : fopen(path, "a");

    if (file != NULL) {
        fprintf(file, "%s\n", call);
        __real_fclose(file);
    }
}

/* One call of this name; true where it is to fail. */
static bool fault(const char *call)
{
    static int calls[MOST_FAULTS];
    const char *wish = getenv("FAULT");
    bool fails = false;

    record(call);
    for (int i = 0; wish != NULL; i++) {
        char name[16];
        char how[16];
        int which;

        if (i == MOST_FAULTS || sscanf(wish, "%15[a-z_]:%d:%15[A-Z]", name, &which, how) != 3)
            abandon("FAULT is not CALL:N:HOW, ..");
        if (strcmp(call, name) == 0 && ++calls[i] == which)
            fails = apply(how);
        wish = strchr(wish, ',');
        wish = wish == NULL ? NULL : wish + 1;
    }
    return fails;
}

#define FAULTY(type, name, parameters, arguments, failure) \
    type __real_##name parameters; \
    type __wrap_##name parameters; \
    type __wrap_##name parameters \
    { \
        return fault(#name) ? failure : __real_##name arguments; \
    }

FAULTY(int, access, (const char *path, int mode), (path, mode), -1)
FAULTY(int, close, (int descriptor), (descriptor), -1)
FAULTY(int, fchmod, (int descriptor, mode_t mode), (descriptor, mode), -1)
FAULTY(int, fchown, (int descriptor, uid_t owner, gid_t group), (descriptor, owner, group), -1)
FAULTY(int, fclose, (FILE * stream), (stream), (__real_fclose(stream), EOF))
FAULTY(int, fcntl, (int descriptor, int command, struct flock *lock), (descriptor, command, lock), -1)
FAULTY(int, fstat, (int descriptor, struct stat *status), (descriptor, status), -1)
FAULTY(int, fsync, (int descriptor), (descriptor), -1)
FAULTY(int, link, (const char *from, const char *to), (from, to), -1)
FAULTY(int, lstat, (const char *path, struct stat *status), (path, status), -1)
FAULTY(void *, malloc, (size_t size), (size), NULL)
FAULTY(int, mkstemp, (char *path), (path), -1)
FAULTY(int, open, (const char *path, int flags), (path, flags), -1)
FAULTY(FILE *, open_memstream, (char **text, size_t *size), (text, size), NULL)
FAULTY(int, poll, (struct pollfd * set, nfds_t count, int wait), (set, count, wait), -1)
FAULTY(ssize_t, read, (int descriptor, void *bytes, size_t size), (descriptor, bytes, short_moves ? 1 : size), -1)
FAULTY(char *, realpath, (const char *path, char *resolved), (path, resolved), NULL)
FAULTY(int, rename, (const char *from, const char *to), (from, to), -1)
FAULTY(int, sigaction, (int number, const struct sigaction *now, struct sigaction *old), (number, now, old), -1)
FAULTY(int, sigpending, (sigset_t * waiting), (waiting), -1)
FAULTY(int, sigprocmask, (int how, const sigset_t *now, sigset_t *old), (how, now, old), -1)
FAULTY(int, stat, (const char *path, struct stat *status), (path, status), -1)
FAULTY(char *, strdup, (const char *text), (text), NULL)
FAULTY(int, unlink, (const char *path), (path), -1)
FAULTY(ssize_t, write, (int descriptor, const void *bytes, size_t size), (descriptor, bytes, short_moves ? 1 : size),
       -1)
