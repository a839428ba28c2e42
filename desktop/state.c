/* hsc state: the state at any place of the trace, as replay has it. */
#include "assemble.h"
#include "command.h"
#include "fields.h"
#include "number.h"

#include <inttypes.h>
#include <stdio.h>

static void print_place(const struct image *image, uint32_t event)
{
    if (event < image->events)
        printf("before event %" PRIu32 " of %" PRIu32 "\n", event, image->events);
    else
        printf("after all %" PRIu32 " events\n", image->events);
}

static enum outcome print_state(const struct image *image, uint32_t event)
{
    uint8_t state[HSC_SNAPSHOT_SIZE];
    int32_t fields[HSC_FIELD_COUNT];
    uint64_t status;
    enum outcome outcome = replay_before(image, event, state);

    if (outcome != DONE)
        return outcome;
    status = hsc_read(state, HSC_SNAPSHOT_SIZE, fields);
    if (status != 0)
        return tell_refusal(image->path, status);
    print_place(image, event);
    fields_print(fields);
    return DONE;
}

/* An event's place, or the count of events, which is the place after the last. */
static enum outcome parse_event(const struct image *image, const struct request *request, uint32_t *event)
{
    uint64_t place = image->events;
    enum outcome outcome = request->operand_count > 1 ? number_parse("EVENT", request->operands[1], &place) : DONE;

    if (outcome != DONE)
        return outcome;
    if (place > image->events)
        return tell_no_such(image->path, "event", place, image->events);
    *event = (uint32_t)place;
    return DONE;
}

enum outcome command_state(const struct request *request)
{
    struct image image;
    uint32_t event = 0;
    enum outcome outcome = image_load(&image, request->operands[0]);

    if (outcome != DONE)
        return outcome;
    outcome = parse_event(&image, request, &event);
    if (outcome == DONE)
        outcome = print_state(&image, event);
    image_free(&image);
    return outcome;
}
