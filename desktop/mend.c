/* hsc mend: a patch copied over some events, and the table mended after them. */
#include "command.h"
#include "edit.h"
#include "event.h"
#include "file.h"
#include "hsc.h"
#include "number.h"
#include "table.h"
#include "words.h"

#include <inttypes.h>
#include <stdio.h>
#include <stdlib.h>

/* Tells which half of refusal 7 it is. */
static enum outcome refuse_patch(const struct image *image, uint64_t first, const struct contents *patch)
{
    fprintf(stderr, "hsc: %s: refused %d at 0: ", patch->path, HSC_REFUSED_PATCH);
    if (patch->size > EVENTS_LONGEST)
        fprintf(stderr, "the patch has more than %zu bytes, which are the events of the largest image\n",
                EVENTS_LONGEST);
    else if (patch->size % HSC_EVENT_SIZE != 0)
        fprintf(stderr, "the patch has %zu bytes, which is not a multiple of %d\n", patch->size, HSC_EVENT_SIZE);
    else
        fprintf(stderr, "%zu event%s from place %" PRIu64 " on would go past the end: %s has %" PRIu32 " events\n",
                patch->size / HSC_EVENT_SIZE, plural(patch->size / HSC_EVENT_SIZE), first, image->path, image->events);
    return REFUSED;
}

static enum outcome refuse(const struct image *image, uint64_t first, const struct contents *patch, uint64_t status)
{
    switch (hsc_number(status)) {
    case HSC_REFUSED_PATCH:
        return refuse_patch(image, first, patch);
    case HSC_REFUSED_PATCH_EVENT:
        return tell_refusal(patch->path, status);
    default:
        return tell_refusal(image->path, status);
    }
}

/* A table that is not true is refused; the image is replayed then. */
static enum outcome check_table(const struct image *image)
{
    struct comparison comparison;
    enum outcome outcome = table_replay(image, &comparison);

    if (outcome != DONE || comparison.different == 0)
        return outcome;
    fprintf(stderr, "hsc: %s: refused, the table is not true: ", image->path);
    table_print_difference(stderr, image, &comparison);
    fprintf(stderr, "\n");
    return REFUSED;
}

/* A count stands before what it counts; a place and an index count from 0. */
static void print_mend(const struct image *image, uint64_t first, const struct contents *patch, const uint32_t span[3])
{
    size_t events = patch->size / HSC_EVENT_SIZE;
    uint32_t snapshots = span[1] - span[0];

    printf("%zu event%s from place %" PRIu64 ", %" PRIu32 " snapshot%s from index %" PRIu32, events, plural(events),
           first, snapshots, plural(snapshots), span[0]);
    if (span[1] < image->snapshots)
        printf(", index %" PRIu32 " agreed", span[1]);
    else
        printf(", none agreed");
    printf("; ran %" PRIu32 " of %" PRIu32 " event%s", span[2], image->events, plural(image->events));
}

static enum outcome mend(struct edit *edit, uint64_t first, const struct contents *patch, bool checked)
{
    const struct image *image = &edit->image;
    uint32_t span[3];
    enum outcome outcome = checked ? check_table(image) : DONE;
    uint64_t status;

    if (outcome != DONE)
        return outcome;
    status = hsc_mend(image->bytes, image->size, first, patch->bytes, patch->size, span);
    if (status != 0)
        return refuse(image, first, patch, status);
    outcome = edit_write(edit);
    if (outcome != DONE)
        return outcome;
    print_mend(image, first, patch, span);
    printf("; table %s\n", checked ? "checked" : "not checked");
    return edit_tell(edit);
}

static enum outcome mend_with(const struct request *request, uint64_t first, const struct contents *patch)
{
    struct edit edit;
    enum outcome outcome = edit_open(&edit, request);

    if (outcome != DONE)
        return outcome;
    outcome = mend(&edit, first, patch, request_has(request, OPTION_CHECK));
    edit_close(&edit);
    return outcome;
}

/* The patch is read and closed before the image is locked: it may be the same file. */
enum outcome command_mend(const struct request *request)
{
    struct contents patch;
    uint64_t first;
    enum outcome outcome = number_parse("FIRST", request->operands[1], &first);

    if (outcome != DONE)
        return outcome;
    if (file_is_standard(request->operands[0]) && file_is_standard(request->operands[2]))
        return tell_failure("standard input", "cannot be both IMAGE and PATCH");
    outcome = file_load(&patch, request->operands[2], EVENTS_LONGEST + 1);
    if (outcome != DONE)
        return outcome;
    outcome = mend_with(request, first, &patch);
    free(patch.bytes);
    return outcome;
}
