/* Some events of an image that stand in a row, as the user asks for them. */
#include "run.h"

#include "number.h"

/* Leaves the number as it is where none is given. */
static enum outcome parse_given(const struct given *given, uint64_t *number)
{
    return given->text == NULL ? DONE : number_parse(given->name, given->text, number);
}

enum outcome run_parse(struct run *run, const struct image *image, const struct given *from, const struct given *count)
{
    uint64_t first = 0;
    uint64_t most = UINT64_MAX;
    enum outcome outcome = parse_given(from, &first);

    if (outcome == DONE)
        outcome = parse_given(count, &most);
    if (outcome != DONE)
        return outcome;
    if (first > image->events)
        return tell_no_such(image->path, "event", first, image->events);
    run->from = (uint32_t)first;
    run->end = most < image->events - first ? (uint32_t)(first + most) : image->events;
    return DONE;
}
