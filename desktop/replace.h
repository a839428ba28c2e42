/* A file replaced or made, whole or not at all. */
#ifndef REPLACE_H
#define REPLACE_H

#include "tell.h"

#include <stdbool.h>
#include <stddef.h>
#include <stdint.h>
#include <sys/stat.h>

/*
 * Puts the bytes in the file's place: a temporary file in the same folder is written, brought to the disk and given its
 * name. Until then all is as it was, also after a crash. A symbolic link is followed to its target; owner, group and
 * mode are kept as far as the system allows.
 *
 * old: the file's status when it was locked; one that has changed since is left alone, and that is told as a failure.
 * NULL: there is no file. It is made, with its mode by umask; one that another program has made since is left alone.
 *
 * Signals that end the program are held. One that comes before the file has its name ends the program, and nothing is
 * written; one that comes later is held until the program ends, so that what was done is told.
 */
enum outcome replace_file(const char *path, const struct stat *old, const uint8_t *bytes, size_t size);

/* Whether a temporary file could be made in its folder now, by the folder's rights; if not, that is told. */
enum outcome replace_check(const char *path, bool exists);

#endif
