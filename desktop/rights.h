/* Owner, group and mode of a file that is written. */
#ifndef RIGHTS_H
#define RIGHTS_H

#include <stdbool.h>
#include <sys/stat.h>

/* What the system did not allow: the error, or 0. */
struct rights {
    int owner_lost;
    int group_lost;
    int mode_lost;
};

/*
 * Gives the open file, which is for its owner alone, those of the old one, or the mode by umask where there is no old
 * one. Owner and group are a wish; so is the mode of a new file. False, with errno: an old mode cannot be given.
 */
bool rights_give(struct rights *rights, int descriptor, const struct stat *old);

/* Tells what was not allowed. */
void rights_tell(const struct rights *rights, const char *path);

#endif
