/* hsc receive: an image taken from standard input as it comes, and written once it is whole. */
#include "command.h"
#include "output.h"
#include "progress.h"
#include "reception.h"
#include "stream.h"
#include "summary.h"

/* So many bytes are asked for at a time. */
#define CHUNK_SIZE 65536

/* A serial line that is silent for so many milliseconds after the image's last byte has ended. */
#define SILENCE 1000

/* Takes what has come; ended: it was the stream's end. */
static enum outcome take_chunk(struct reception *reception, const struct stream *stream, bool *ended)
{
    uint8_t chunk[CHUNK_SIZE];
    size_t count;
    enum outcome outcome = stream_read(stream, chunk, sizeof chunk, &count);

    if (outcome != DONE)
        return outcome;
    *ended = count == 0;
    return reception_take(reception, chunk, count);
}

/* Waits for the next chunk and takes it, while the user sees how far the reception has come. */
static enum outcome follow(struct reception *reception, const struct stream *stream, struct progress *progress,
                           bool *ended)
{
    bool last = stream->serial && reception_is_whole(reception);
    bool came;
    enum outcome outcome = stream_wait(stream, last ? SILENCE : progress_patience(progress, reception), &came);

    if (outcome != DONE)
        return outcome;
    if (!came) {
        progress_show(progress, reception);
        *ended = last;
        return DONE;
    }
    outcome = take_chunk(reception, stream, ended);
    if (outcome == DONE)
        progress_follow(progress, reception);
    return outcome;
}

static enum outcome receive(struct reception *reception, const struct stream *stream)
{
    struct progress progress;
    enum outcome outcome = DONE;
    bool ended = false;

    progress_begin(&progress);
    progress_show(&progress, reception);
    while (outcome == DONE && !ended)
        outcome = follow(reception, stream, &progress, &ended);
    if (outcome != DONE)
        return outcome;
    progress_show(&progress, reception);
    tell_progress_end();
    return reception_end(reception);
}

static enum outcome write_image(const struct reception *reception, const char *out)
{
    const struct image *image = &reception->image;
    enum outcome outcome = output_write(out, "-", image->bytes, image->size);

    if (outcome == DONE)
        outcome = summary_print(image, reception->comparison.last);
    if (outcome != DONE)
        return outcome;
    table_print(image, &reception->comparison, "as sent");
    return output_tell(out);
}

/* OUT is looked at before the sender is waited for, and nothing is written or locked until all has come. */
enum outcome command_receive(const struct request *request)
{
    const char *out = request->operands[0];
    struct stream stream;
    struct reception reception;
    enum outcome outcome;

    if (request->operand_count > 1 && !file_is_standard(request->operands[1]))
        return tell_failure(request->operands[1], "an image is received from standard input alone, which is -");
    outcome = output_check(out);
    if (outcome == DONE)
        outcome = stream_open(&stream);
    if (outcome != DONE)
        return outcome;
    reception_begin(&reception, stream.file.path);
    outcome = receive(&reception, &stream);
    if (outcome == DONE)
        outcome = write_image(&reception, out);
    reception_free(&reception);
    return outcome;
}
