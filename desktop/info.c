/* hsc info: an image's header, its events by kind, and its gaps: runs of blank events. */
#include "command.h"
#include "event.h"
#include "hsc.h"
#include "image.h"
#include "words.h"

#include <inttypes.h>
#include <stdbool.h>
#include <stdio.h>

/* So many gaps are printed where not all are asked for. */
#define FIRST_GAPS 5

/* A run of blank events, from one place to before another. */
struct gap {
    uint32_t start;
    uint32_t end;
};

static uint8_t kind_at(const struct image *image, uint32_t place)
{
    return event_kind(image_event(image, place));
}

/* Counts legal events by kind; the first illegal one is refused. */
static enum outcome count_kinds(const struct image *image, uint32_t counts[HSC_KIND_COUNT])
{
    enum outcome outcome = DONE;

    for (uint32_t place = 0; outcome == DONE && place < image->events; place++) {
        outcome = image_check_event(image, place);
        if (outcome == DONE)
            counts[kind_at(image, place)]++;
    }
    return outcome;
}

/* The first place from here on that is, or is not, blank; the event count where there is none. */
static uint32_t next_place(const struct image *image, uint32_t place, int blank)
{
    while (place < image->events && (kind_at(image, place) == HSC_BLANK) != blank)
        place++;
    return place;
}

/* Moves on to the next gap; at first the gap ends at 0. False where there is none. */
static bool next_gap(const struct image *image, struct gap *gap)
{
    gap->start = next_place(image, gap->end, 1);
    gap->end = next_place(image, gap->start, 0);
    return gap->start < image->events;
}

static void print_gap(const struct gap *gap)
{
    printf("events %" PRIu32 " to %" PRIu32 ", %" PRIu32 " blank\n", gap->start, gap->end - 1, gap->end - gap->start);
}

/* How many gaps there are, and the first of the longest. */
static uint32_t count_gaps(const struct image *image, struct gap *longest)
{
    struct gap gap = {0, 0};
    uint32_t count = 0;

    *longest = gap;
    while (next_gap(image, &gap)) {
        if (gap.end - gap.start > longest->end - longest->start)
            *longest = gap;
        count++;
    }
    return count;
}

static void print_first_gaps(const struct image *image, uint32_t most)
{
    struct gap gap = {0, 0};

    while (most-- > 0 && next_gap(image, &gap)) {
        printf("gap: ");
        print_gap(&gap);
    }
}

static void print_gaps(const struct image *image, bool all)
{
    struct gap longest;
    uint32_t count = count_gaps(image, &longest);

    printf("gaps: %" PRIu32 "\n", count);
    if (count == 0)
        return;
    printf("longest gap: ");
    print_gap(&longest);
    print_first_gaps(image, all ? count : FIRST_GAPS);
    if (!all && count > FIRST_GAPS)
        printf("and %" PRIu32 " more gaps, which --gaps prints\n", count - FIRST_GAPS);
}

static enum outcome print_info(const struct image *image, bool all_gaps)
{
    uint32_t counts[HSC_KIND_COUNT] = {0};
    enum outcome outcome = count_kinds(image, counts);

    if (outcome != DONE)
        return outcome;
    printf("bytes %zu\n", image->size);
    printf("events %" PRIu32 ", from byte %td\n", image->events, image_event(image, 0) - image->bytes);
    printf("snapshots %" PRIu32 ", from byte %td\n", image->snapshots, image_snapshot(image, 0) - image->bytes);
    printf("spacing %" PRIu32 "\n", image->spacing);
    for (int kind = 0; kind < HSC_KIND_COUNT; kind++)
        printf("kind %d, %s: %" PRIu32 "\n", kind, KIND_NAMES[kind], counts[kind]);
    print_gaps(image, all_gaps);
    return DONE;
}

enum outcome command_info(const struct request *request)
{
    struct image image;
    enum outcome outcome = image_load(&image, request->operands[0]);

    if (outcome != DONE)
        return outcome;
    outcome = print_info(&image, request_has(request, OPTION_GAPS));
    image_free(&image);
    return outcome;
}
