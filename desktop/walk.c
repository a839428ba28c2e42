/*
 * The counter taken along a trace, event by event. What an event does is asked of the library, not told from the rules:
 * OF, UF and MD are put to 0 before each event, so that they speak of it alone.
 */
#include "walk.h"

#include "event.h"

#include <stdbool.h>
#include <string.h>

/* From here no count comes to 0, but one that sets OF, UF or MD. */
#define FAR_FROM_0 2

#define FLAG_MARK_COUNT (MARK_RETURN + 1)

/* The flags that tell of the first marks. */
static const uint8_t MARK_FLAGS[FLAG_MARK_COUNT] = {
    [MARK_OVERFLOW] = HSC_FLAG_OF,
    [MARK_UNDERFLOW] = HSC_FLAG_UF,
    [MARK_RETURN] = HSC_FLAG_MD,
};

/* One step, and the state after it. */
static void take(struct walk *walk, const uint8_t event[HSC_EVENT_SIZE])
{
    uint64_t status = hsc_step(walk->snapshot, HSC_SNAPSHOT_SIZE, event, HSC_EVENT_SIZE);

    if (status == HSC_DONE)
        status = hsc_read(walk->snapshot, HSC_SNAPSHOT_SIZE, walk->fields);
    if (walk->status == HSC_DONE)
        walk->status = status;
}

static void take_write(struct walk *walk, uint8_t kind, uint8_t sub, int32_t value)
{
    uint8_t event[HSC_EVENT_SIZE];

    event_write(event, kind, sub, value, 0);
    take(walk, event);
}

static void clear_flags(struct walk *walk)
{
    for (int mark = 0; mark < FLAG_MARK_COUNT; mark++)
        take_write(walk, HSC_FLAG_WRITE, MARK_FLAGS[mark], 0);
}

static unsigned flag_marks(const struct walk *walk)
{
    unsigned marks = 0;

    for (int mark = 0; mark < FLAG_MARK_COUNT; mark++)
        if ((uint32_t)walk->fields[HSC_FLAGS] >> MARK_FLAGS[mark] & 1)
            marks |= MARKED(mark);
    return marks;
}

/* The sample puts the counter to 0, wherever it stands. */
static bool resets(const struct walk *before, const uint8_t sample[HSC_EVENT_SIZE])
{
    struct walk other = *before;

    take_write(&other, HSC_ACC_WRITE, 0, FAR_FROM_0);
    take(&other, sample);
    return other.fields[HSC_ACC] == 0 && flag_marks(&other) == 0;
}

void walk_begin(struct walk *walk, const uint8_t state[HSC_SNAPSHOT_SIZE])
{
    *walk = (struct walk){.status = HSC_DONE};
    memcpy(walk->snapshot, state, HSC_SNAPSHOT_SIZE);
    clear_flags(walk);
}

unsigned walk_take(struct walk *walk, const uint8_t event[HSC_EVENT_SIZE])
{
    struct walk before = *walk;
    uint8_t kind = event_kind(event);
    unsigned marks;

    take(walk, event);
    marks = flag_marks(walk);
    if (marks != 0)
        clear_flags(walk);
    if (kind == HSC_INPUT_SAMPLE && walk->fields[HSC_ACC] == 0 && resets(&before, event))
        marks |= MARKED(MARK_RESET);
    return kind == HSC_BLANK ? marks | MARKED(MARK_BLANK) : marks;
}
