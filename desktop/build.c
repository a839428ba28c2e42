/* hsc build: an image made of events, with its table replayed. */
#include "assemble.h"
#include "command.h"
#include "number.h"
#include "output.h"
#include "summary.h"
#include "text.h"

#include <stdio.h>
#include <stdlib.h>
#include <string.h>

/* What the operands ask for. */
struct plan {
    const char *source;
    uint32_t spacing;
    const char *out;
};

static enum outcome build(const struct plan *plan, const struct row *row)
{
    struct image image;
    uint8_t last[HSC_SNAPSHOT_SIZE];
    enum outcome outcome = assemble(&image, row, plan->spacing, last);

    if (outcome != DONE)
        return outcome;
    outcome = output_write(plan->out, plan->source, image.bytes, image.size);
    if (outcome == DONE)
        outcome = summary_print(&image, last);
    if (outcome == DONE)
        outcome = output_tell(plan->out);
    image_free(&image);
    return outcome;
}

static enum outcome build_from_text(const struct plan *plan, const struct contents *contents)
{
    struct encoding encoding;
    enum outcome outcome = text_encode(&encoding, contents);
    struct row row = {.path = contents->path};

    if (outcome != DONE)
        return outcome;
    row.events = encoding.events;
    row.count = encoding.count;
    outcome = build(plan, &row);
    free(encoding.events);
    return outcome;
}

/* Tells why the bytes are no row of events. */
static enum outcome refuse_bytes(const struct contents *contents)
{
    fprintf(stderr, "hsc: %s: refused, ", contents->path);
    if (contents->size / HSC_EVENT_SIZE >= HSC_MAX_EVENTS)
        fprintf(stderr, "there are more than %d events, which is more than an image has\n", HSC_MAX_EVENTS);
    else
        fprintf(stderr, "there are %zu bytes, which is not a multiple of %d\n", contents->size, HSC_EVENT_SIZE);
    return REFUSED;
}

static enum outcome build_from_bytes(const struct plan *plan, const struct contents *contents)
{
    struct row row = {.path = contents->path, .events = contents->bytes};
    size_t count = contents->size / HSC_EVENT_SIZE;

    if (contents->size % HSC_EVENT_SIZE != 0 || count > HSC_MAX_EVENTS)
        return refuse_bytes(contents);
    row.count = (uint32_t)count;
    return build(plan, &row);
}

/* Every legal event has two bytes of zero, and no text has one. */
static enum outcome build_from(const struct plan *plan, const struct contents *contents)
{
    if (memchr(contents->bytes, 0, contents->size) == NULL)
        return build_from_text(plan, contents);
    return build_from_bytes(plan, contents);
}

static enum outcome parse_spacing(const char *text, uint32_t *spacing)
{
    uint64_t number;
    enum outcome outcome = number_parse("K", text, &number);

    if (outcome != DONE)
        return outcome;
    if (number == 0 || number > HSC_MAX_SPACING)
        return tell_failure(text, "the spacing is 1 to 4096 events");
    *spacing = (uint32_t)number;
    return DONE;
}

enum outcome command_build(const struct request *request)
{
    struct plan plan = {.source = request->operands[0], .out = request->operands[2]};
    struct contents contents;
    enum outcome outcome = parse_spacing(request->operands[1], &plan.spacing);

    if (outcome != DONE)
        return outcome;
    outcome = file_load(&contents, plan.source, TEXT_LONGEST + 1);
    if (outcome != DONE)
        return outcome;
    outcome = build_from(&plan, &contents);
    free(contents.bytes);
    return outcome;
}
