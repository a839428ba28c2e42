/* Where a file is to be written: over one that is locked so long, or where there is none. */
#ifndef TARGET_H
#define TARGET_H

#include "file.h"
#include "tell.h"

#include <stdbool.h>
#include <stddef.h>
#include <stdint.h>

struct target {
    const char *path;
    bool exists;
    struct file file; /* what stands there, locked; only where it exists */
};

/* A file that must exist. Where it is done, target_close is owed. */
enum outcome target_open_existing(struct target *target, const char *path);

/* A file that is replaced, or made where there is none. Where it is done, target_close is owed. */
enum outcome target_open(struct target *target, const char *path);

/* Whether a file could be written there now, as far as that can be told without one; if not, that is told. */
enum outcome target_check(const char *path);

/* Puts the bytes there, as replace_file does. */
enum outcome target_write(const struct target *target, const uint8_t *bytes, size_t size);

void target_close(const struct target *target);

/* All three at once, for a file whose bytes do not depend on what it held. */
enum outcome write_file(const char *path, const uint8_t *bytes, size_t size);

#endif
