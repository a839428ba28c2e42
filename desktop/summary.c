/* An image in one line: the office program's, document 01. */
#include "summary.h"

#include <inttypes.h>
#include <stdio.h>

enum outcome summary_print(const struct image *image, const uint8_t last[HSC_SNAPSHOT_SIZE])
{
    int32_t fields[HSC_FIELD_COUNT];
    uint64_t status = hsc_read(last, HSC_SNAPSHOT_SIZE, fields);

    if (status != 0)
        return tell_refusal(image->path, status);
    printf("events %" PRIu32 " snapshots %" PRIu32 " acc %" PRId32 " out %04" PRIx32 " er %" PRId32 " flags %08" PRIx32
           "\n",
           image->events, image->snapshots, fields[HSC_ACC], (uint32_t)fields[HSC_OUTPUTS], fields[HSC_ER],
           (uint32_t)fields[HSC_FLAGS]);
    return DONE;
}
