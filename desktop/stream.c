/* Standard input, read as it comes. */
#include "stream.h"

#include <errno.h>
#include <poll.h>
#include <termios.h>
#include <unistd.h>

/* What a terminal does to bytes that come, unless it is raw. */
#define LOCAL_CHANGES (ICANON | ISIG)
#define INPUT_CHANGES (ICRNL | IGNCR | INLCR | ISTRIP | IXON | PARMRK)

/* Bytes that a terminal took for keys would be missing, or be others. */
static enum outcome check_raw(const struct file *file)
{
    struct termios settings;

    if (tcgetattr(file->descriptor, &settings) != 0)
        return tell_errno(file->path, "the terminal's settings cannot be read");
    if ((settings.c_lflag & LOCAL_CHANGES) != 0 || (settings.c_iflag & INPUT_CHANGES) != 0)
        return tell_failure(file->path, "a terminal that is not raw; a serial line is made so by stty raw");
    return DONE;
}

enum outcome stream_open(struct stream *stream)
{
    enum outcome outcome = file_open(&stream->file, "-");

    if (outcome != DONE)
        return outcome;
    stream->serial = isatty(stream->file.descriptor) == 1;
    return stream->serial ? check_raw(&stream->file) : DONE;
}

enum outcome stream_wait(const struct stream *stream, int milliseconds, bool *came)
{
    struct pollfd input = {.fd = stream->file.descriptor, .events = POLLIN};
    int answer;

    do
        answer = poll(&input, 1, milliseconds);
    while (answer < 0 && errno == EINTR);
    if (answer < 0)
        return tell_errno(stream->file.path, "cannot be waited for");
    *came = answer > 0;
    return DONE;
}

enum outcome stream_read(const struct stream *stream, uint8_t *bytes, size_t size, size_t *count)
{
    ssize_t moved;

    do
        moved = read(stream->file.descriptor, bytes, size);
    while (moved < 0 && errno == EINTR);
    if (moved < 0)
        return tell_errno(stream->file.path, "cannot be read");
    *count = (size_t)moved;
    return DONE;
}
