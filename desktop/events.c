/* hsc events: an image's events as lines of text. */
#include "command.h"
#include "hsc.h"
#include "image.h"
#include "line.h"
#include "run.h"

#include <string.h>

/* Nothing is printed where one of the events is not legal. */
static enum outcome check_legal(const struct image *image, const struct run *run)
{
    enum outcome outcome = DONE;

    for (uint32_t place = run->from; outcome == DONE && place < run->end; place++)
        outcome = image_check_event(image, place);
    return outcome;
}

static enum outcome print_events(const struct image *image, const struct run *run, const struct request *request)
{
    enum outcome outcome = check_legal(image, run);

    if (outcome != DONE)
        return outcome;
    for (uint32_t place = run->from; place < run->end; place++) {
        struct line line = {
            .placed = !request_has(request, OPTION_BARE),
            .place = place,
            .stamped = request_has(request, OPTION_STAMPS),
        };

        memcpy(line.event, image_event(image, place), HSC_EVENT_SIZE);
        line_print(stdout, &line);
    }
    return DONE;
}

/* The operand of this place; NULL where it is not given. */
static const char *operand(const struct request *request, int place)
{
    return place < request->operand_count ? request->operands[place] : NULL;
}

enum outcome command_events(const struct request *request)
{
    struct image image;
    struct run run;
    const struct given from = {"FROM", operand(request, 1)};
    const struct given count = {"COUNT", operand(request, 2)};
    enum outcome outcome = image_load(&image, request->operands[0]);

    if (outcome != DONE)
        return outcome;
    outcome = run_parse(&run, &image, &from, &count);
    if (outcome == DONE)
        outcome = print_events(&image, &run, request);
    image_free(&image);
    return outcome;
}
