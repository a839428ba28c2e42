/* Owner, group and mode of a file that is written. */
#include "rights.h"

#include "tell.h"

#include <errno.h>
#include <stddef.h>
#include <unistd.h>

#define EVERYONE (S_IRUSR | S_IWUSR | S_IRGRP | S_IWGRP | S_IROTH | S_IWOTH)

/* Where the group is not kept, the new one may do no more than others could. */
static bool keep(struct rights *rights, int descriptor, const struct stat *old)
{
    mode_t mode = old->st_mode & (S_ISUID | S_ISGID | S_ISVTX | S_IRWXU | S_IRWXG | S_IRWXO);

    if (fchown(descriptor, old->st_uid, old->st_gid) != 0) {
        rights->owner_lost = errno;
        mode &= S_IRWXU | S_IRWXG | S_IRWXO;
        if (fchown(descriptor, (uid_t)-1, old->st_gid) != 0) {
            rights->group_lost = errno;
            mode &= S_IRWXU | S_IRWXO | (mode & S_IRWXO) << 3;
        }
    }
    return fchmod(descriptor, mode) == 0;
}

static void give_by_umask(struct rights *rights, int descriptor)
{
    mode_t mask = umask(0);

    (void)umask(mask);
    if (fchmod(descriptor, EVERYONE & ~mask) != 0)
        rights->mode_lost = errno;
}

bool rights_give(struct rights *rights, int descriptor, const struct stat *old)
{
    *rights = (struct rights){0};
    if (old != NULL)
        return keep(rights, descriptor, old);
    give_by_umask(rights, descriptor);
    return true;
}

static void tell_lost(int error, const char *path, const char *what)
{
    if (error != 0) {
        errno = error;
        tell_errno(path, what);
    }
}

void rights_tell(const struct rights *rights, const char *path)
{
    tell_lost(rights->owner_lost, path, "the owner is not kept");
    tell_lost(rights->group_lost, path, "the group is not kept");
    tell_lost(rights->mode_lost, path, "its mode is for its owner alone");
}
