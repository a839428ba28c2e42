/* How far a reception has come: one line on a terminal, written over again. */
#include "progress.h"

#include "stream.h"

#include <inttypes.h>
#include <stdio.h>
#include <unistd.h>

/* The line is written no sooner than so many milliseconds after the last time, and no later after the last byte. */
#define MOMENT 200

#define LINE_SIZE 80

void progress_begin(struct progress *progress)
{
    *progress = (struct progress){.terminal = isatty(STDERR_FILENO) == 1};
}

static struct timespec now(void)
{
    struct timespec time = {0};

    (void)clock_gettime(CLOCK_MONOTONIC, &time);
    return time;
}

/* The accumulator in the last snapshot that the reader gave. */
static int32_t last_acc(const struct reception *reception)
{
    const uint8_t *last = reception->table + (size_t)(reception->snapshots - 1) * HSC_SNAPSHOT_SIZE;
    int32_t fields[HSC_FIELD_COUNT] = {0};

    (void)hsc_read(last, HSC_SNAPSHOT_SIZE, fields);
    return fields[HSC_ACC];
}

/* The last number has room for any other, so that nothing of a line before is left behind it. */
static void print_line(const struct reception *reception, char line[LINE_SIZE])
{
    const struct image *image = &reception->image;

    if (reception->snapshots == 0)
        snprintf(line, LINE_SIZE, "waiting for the header: %zu of %d bytes", reception->bytes, HSC_HEADER_SIZE);
    else
        snprintf(line, LINE_SIZE, "%3zu%% events %" PRIu32 " of %" PRIu32 " snapshots %" PRIu32 " acc %-11" PRId32,
                 reception->bytes * 100 / image->size, reception_events(reception), image->events,
                 reception->snapshots, last_acc(reception));
}

static bool is_behind(const struct progress *progress, const struct reception *reception)
{
    return progress->terminal && (!progress->begun || progress->bytes < reception->bytes);
}

void progress_show(struct progress *progress, const struct reception *reception)
{
    char line[LINE_SIZE];

    if (!is_behind(progress, reception))
        return;
    print_line(reception, line);
    tell_progress(line);
    progress->begun = true;
    progress->bytes = reception->bytes;
    progress->time = now();
}

void progress_follow(struct progress *progress, const struct reception *reception)
{
    struct timespec time;

    if (!is_behind(progress, reception))
        return;
    time = now();
    if ((time.tv_sec - progress->time.tv_sec) * 1000 + (time.tv_nsec - progress->time.tv_nsec) / 1000000 >= MOMENT)
        progress_show(progress, reception);
}

int progress_patience(const struct progress *progress, const struct reception *reception)
{
    return is_behind(progress, reception) ? MOMENT : FOR_EVER;
}
