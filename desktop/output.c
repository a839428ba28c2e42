/* The file OUT that a command makes of another one. */
#include "output.h"

#include "file.h"
#include "target.h"

#include <errno.h>
#include <stdio.h>

/* The two names lead to two files, as far as both are there. */
static enum outcome compare_files(const char *out, const char *source)
{
    struct stat one;
    struct stat other;

    if (stat(out, &one) != 0)
        return errno == ENOENT ? DONE : tell_errno(out, "status cannot be read");
    if (stat(source, &other) != 0)
        return tell_errno(source, "status cannot be read");
    if (file_is_same(&one, &other))
        return tell_failure(out, "is the file that is read");
    return DONE;
}

static enum outcome check_word(const char *out)
{
    if (file_is_standard(out))
        return tell_failure("OUT", "takes the name of a file, not standard output");
    return DONE;
}

enum outcome output_write(const char *out, const char *source, const uint8_t *bytes, size_t size)
{
    enum outcome outcome = check_word(out);

    if (outcome == DONE && !file_is_standard(source))
        outcome = compare_files(out, source);
    return outcome == DONE ? write_file(out, bytes, size) : outcome;
}

enum outcome output_check(const char *out)
{
    enum outcome outcome = check_word(out);

    return outcome == DONE ? target_check(out) : outcome;
}

enum outcome output_tell(const char *out)
{
    printf("written to %s\n", out);
    return tell_written(out);
}
