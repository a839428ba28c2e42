/* The counts of a night: the accumulator before and after each event of a run, as the library draws it. */
#include "night.h"

#include "assemble.h"

#include <stdlib.h>
#include <string.h>

/* The library counts the place of an illegal event within the run; the user is told its place in the image. */
static enum outcome refuse(const struct night *night, uint64_t status)
{
    uint64_t from = hsc_number(status) == HSC_REFUSED_EVENT ? night->run.from : 0;

    return tell_refusal(night->image->path, (from << 32) + status);
}

static enum outcome draw_counts(const struct night *night)
{
    uint8_t snapshot[HSC_SNAPSHOT_SIZE];
    int32_t fields[HSC_FIELD_COUNT];
    size_t events = night_events(night);
    uint64_t status = hsc_read(night->before, HSC_SNAPSHOT_SIZE, fields);

    if (status != HSC_DONE)
        return refuse(night, status);
    night->counts[0] = fields[HSC_ACC];
    memcpy(snapshot, night->before, HSC_SNAPSHOT_SIZE);
    status = hsc_draw(snapshot, HSC_SNAPSHOT_SIZE, image_event(night->image, night->run.from), events * HSC_EVENT_SIZE,
                      night->counts + 1, events);
    return status == HSC_DONE ? DONE : refuse(night, status);
}

enum outcome night_draw(struct night *night, const struct image *image, const struct run *run)
{
    enum outcome outcome;

    *night = (struct night){.image = image, .run = *run};
    outcome = replay_before(image, run->from, night->before);
    if (outcome != DONE)
        return outcome;
    night->counts = malloc(((size_t)night_events(night) + 1) * sizeof *night->counts);
    if (night->counts == NULL)
        return tell_errno(image->path, "no memory for the counts");
    outcome = draw_counts(night);
    if (outcome != DONE)
        night_free(night);
    return outcome;
}

void night_free(struct night *night)
{
    free(night->counts);
    night->counts = NULL;
}

uint32_t night_events(const struct night *night)
{
    return night->run.end - night->run.from;
}
