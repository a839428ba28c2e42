/* A trace in memory: the events of an image, or those of a file that has nothing else. */
#include "trace.h"

#include "event.h"
#include "file.h"
#include "hsc.h"
#include "image.h"

static enum outcome load_image(struct trace *trace, const char *path)
{
    struct image image;
    enum outcome outcome = image_load(&image, path);

    if (outcome != DONE)
        return outcome;
    *trace = (struct trace){.path = image.path, .bytes = image.bytes, .events = image_event(&image, 0)};
    trace->size = (size_t)image.events * HSC_EVENT_SIZE;
    return DONE;
}

static enum outcome load_bare(struct trace *trace, const char *path)
{
    struct contents contents;
    enum outcome outcome = file_load(&contents, path, EVENTS_LONGEST + 1);

    if (outcome != DONE)
        return outcome;
    *trace = (struct trace){.path = contents.path, .bytes = contents.bytes, .events = contents.bytes};
    trace->size = contents.size;
    return DONE;
}

enum outcome trace_load(struct trace *trace, const char *path, bool bare)
{
    return bare ? load_bare(trace, path) : load_image(trace, path);
}

const uint8_t *trace_event(const struct trace *trace, uint32_t place)
{
    return trace->events + (size_t)place * HSC_EVENT_SIZE;
}
