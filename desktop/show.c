/* hsc show: one snapshot in words. */
#include "command.h"
#include "fields.h"
#include "hsc.h"
#include "image.h"
#include "number.h"

#include <inttypes.h>
#include <stdio.h>

/* The library reads one snapshot and refuses it at 0; the user is told its index. */
static enum outcome show(const struct image *image, uint32_t j)
{
    int32_t fields[HSC_FIELD_COUNT];
    uint64_t status = hsc_read(image_snapshot(image, j), HSC_SNAPSHOT_SIZE, fields);

    if (status != 0)
        return tell_refusal(image->path, (uint64_t)j << 32 | hsc_number(status));
    printf("snapshot %" PRIu32 " of %" PRIu32 ", after %" PRIu32 " of %" PRIu32 " events\n", j, image->snapshots,
           j * image->spacing, image->events);
    fields_print(fields);
    return DONE;
}

enum outcome command_show(const struct request *request)
{
    struct image image;
    uint64_t j;
    enum outcome outcome = number_parse("J", request->operands[1], &j);

    if (outcome != DONE)
        return outcome;
    outcome = image_load(&image, request->operands[0]);
    if (outcome != DONE)
        return outcome;
    if (j < image.snapshots)
        outcome = show(&image, (uint32_t)j);
    else
        outcome = tell_no_such(image.path, "snapshot", j, image.snapshots);
    image_free(&image);
    return outcome;
}
