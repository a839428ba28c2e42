/* A file that is read to be replaced, and locked so long. */
#ifndef LOCK_H
#define LOCK_H

#include "file.h"
#include "tell.h"

/*
 * Opens a regular file that the user may write, once no other program has it locked; the path leads to it then. The
 * lock is the process's: it ends with file_close, or when any other descriptor of this file is closed, or with the
 * process.
 */
enum outcome lock_open(struct file *file, const char *path);

#endif
