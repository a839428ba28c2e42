/* What the program says on standard error. Nothing is left to be done where that cannot be written. */
#include "tell.h"

#include "hsc.h"
#include "words.h"

#include <errno.h>
#include <inttypes.h>
#include <stdio.h>
#include <string.h>

/* A line of progress stands on the terminal, and is not ended. */
static bool line_is_open;

void tell_progress(const char *text)
{
    fprintf(stderr, "\r%s", text);
    line_is_open = true;
}

void tell_progress_end(void)
{
    if (line_is_open)
        fprintf(stderr, "\n");
    line_is_open = false;
}

enum outcome tell_failure(const char *subject, const char *reason)
{
    tell_progress_end();
    fprintf(stderr, "hsc: %s: %s\n", subject, reason);
    return FAILED;
}

enum outcome tell_errno(const char *subject, const char *action)
{
    int error = errno;

    tell_progress_end();
    fprintf(stderr, "hsc: %s: %s: %s\n", subject, action, strerror(error));
    return FAILED;
}

enum outcome tell_written(const char *path)
{
    if (fflush(stdout) != 0 || ferror(stdout) != 0)
        return tell_errno(path, "written, but the line about it cannot be printed");
    return DONE;
}

enum outcome tell_no_such(const char *path, const char *thing, uint64_t index, uint64_t count)
{
    fprintf(stderr, "hsc: %s: there is no %s %" PRIu64, path, thing, index);
    if (count > 0)
        fprintf(stderr, ", only %ss 0 to %" PRIu64, thing, count - 1);
    fprintf(stderr, "\n");
    return FAILED;
}

static const char *refusal_words(uint32_t number)
{
    switch (number) {
    case HSC_REFUSED_SHORT:
        return "the image is under 24 bytes";
    case HSC_REFUSED_LIMITS:
        return "more than 1048576 events, a spacing that is not 1 to 4096, or a sixth number that is not 0";
    case HSC_REFUSED_OFFSETS:
        return "the event offset, snapshot count or snapshot offset is not what event count and spacing ask for";
    case HSC_REFUSED_LENGTH:
        return "the image's length is not what its header asks for";
    case HSC_REFUSED_EVENT:
        return "this event is not legal";
    case HSC_REFUSED_SNAPSHOT:
        return "this snapshot is not well formed";
    case HSC_REFUSED_PATCH:
        return "the patch is not a row of 12-byte events, or goes past the image's last event";
    case HSC_REFUSED_PATCH_EVENT:
        return "this event of the patch is not legal";
    case HSC_REFUSED_SIZE:
        return "not a row of 12-byte events, more than 1048576 of them, or a snapshot that is not 68 bytes";
    case HSC_REFUSED_ROW:
        return "the row has no room for all differences";
    default:
        return "a refusal that this program does not know";
    }
}

/* No line end. */
static void print_refusal(const char *subject, uint64_t status)
{
    uint32_t number = hsc_number(status);

    tell_progress_end();
    fprintf(stderr, "hsc: %s: refused %" PRIu32 " at %" PRIu32 ": %s", subject, number, hsc_place(status),
            refusal_words(number));
}

enum outcome tell_refusal(const char *subject, uint64_t status)
{
    print_refusal(subject, status);
    fprintf(stderr, "\n");
    return REFUSED;
}

enum outcome tell_refusal_after(const char *subject, uint64_t status, size_t bytes, bool ended)
{
    print_refusal(subject, status);
    fprintf(stderr, "; %s after %zu byte%s\n", ended ? "ended" : "seen", bytes, plural(bytes));
    return REFUSED;
}
