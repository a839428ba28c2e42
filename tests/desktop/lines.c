/*
 * Every event to text and back: all kinds and subs with values at the limits, and many random events. What the library
 * finds legal comes back byte for byte; a number that it does not is refused where it is read.
 */
#include "event.h"
#include "form.h"
#include "line.h"

#include <stdio.h>
#include <stdlib.h>
#include <string.h>

#define BYTE_COUNT 256
#define RANDOM_EVENTS 200000
#define COUNT_OF(row) (sizeof(row) / sizeof(row)[0])

static const int32_t VALUES[] = {
    INT32_MIN, INT32_MIN + 1, -65536, -32769, -32768, -2,    -1,    0,     1,     2,             3,         4,
    7,         8,             15,     16,     17,     32767, 32768, 65535, 65536, INT32_MAX - 1, INT32_MAX,
};
static const uint32_t STAMPS[] = {0, 1, 4095, INT32_MAX, (uint32_t)INT32_MAX + 1, UINT32_MAX - 1, UINT32_MAX};

static unsigned long legal;
static unsigned long illegal;

static void fail(const char *what, const struct line *line)
{
    fprintf(stderr, "lines: %s:", what);
    for (size_t i = 0; i < HSC_EVENT_SIZE; i++)
        fprintf(stderr, " %02x", line->event[i]);
    fprintf(stderr, "\n");
    exit(1);
}

/* The line that is printed, read again. */
static enum outcome read_back(const struct line *line, struct line *back)
{
    char *text = NULL;
    size_t size = 0;
    FILE *stream = open_memstream(&text, &size);
    struct cursor cursor;
    enum outcome outcome;

    if (stream == NULL)
        fail("no memory", line);
    line_print(stream, line);
    if (fclose(stream) != 0 || size == 0 || text[size - 1] != '\n')
        fail("not printed as a line", line);
    cursor = (struct cursor){.path = "lines", .line = 1, .at = text, .end = text + size - 1};
    outcome = line_parse(&cursor, back);
    free(text);
    return outcome;
}

static void take_legal(const struct line *line)
{
    struct line back;

    legal++;
    if (form_of(event_kind(line->event), event_sub(line->event)) == NULL)
        fail("legal, but has no form", line);
    if (read_back(line, &back) != DONE)
        fail("legal, but refused", line);
    if (memcmp(line->event, back.event, HSC_EVENT_SIZE) != 0)
        fail("not the same event", line);
    if (back.placed != line->placed || (line->placed && back.place != line->place) || back.stamped != line->stamped)
        fail("not the same line", line);
}

static void take_illegal(const struct line *line)
{
    const struct form *form = form_of(event_kind(line->event), event_sub(line->event));
    struct line back;

    if (form == NULL || form->notation == NO_VALUE || form->notation == INPUT_LIST)
        return;
    illegal++;
    if (read_back(line, &back) != REFUSED)
        fail("illegal, but read", line);
}

/* A line without a stamp stands for an event whose stamp is 0. */
static void take(int kind, int sub, int32_t value, uint32_t stamp)
{
    struct line line = {.placed = stamp % 2 == 1, .place = stamp, .stamped = stamp > 1};

    event_write(line.event, (uint8_t)kind, (uint8_t)sub, value, line.stamped ? stamp : 0);
    if (hsc_event_check(line.event, HSC_EVENT_SIZE) == 1)
        take_legal(&line);
    else
        take_illegal(&line);
}

static void take_limits(void)
{
    for (int kind = 0; kind < BYTE_COUNT; kind++)
        for (int sub = 0; sub < BYTE_COUNT; sub++)
            for (size_t value = 0; value < COUNT_OF(VALUES); value++)
                for (size_t stamp = 0; stamp < COUNT_OF(STAMPS); stamp++)
                    take(kind, sub, VALUES[value], STAMPS[stamp]);
}

static uint32_t next_random(void)
{
    static uint64_t state = 88172645463325252u;

    state ^= state << 13;
    state ^= state >> 7;
    state ^= state << 17;
    return (uint32_t)(state >> 32);
}

/* Values of every size. */
static void take_random(void)
{
    for (long i = 0; i < RANDOM_EVENTS; i++) {
        const struct form *form = &FORMS[next_random() % FORM_COUNT];
        uint32_t value = next_random() >> next_random() % 32;

        take(form->kind, form->sub, (int32_t)(next_random() % 2 == 0 ? value : -value), next_random());
    }
}

int main(void)
{
    take_limits();
    take_random();
    printf("legal %lu illegal %lu\n", legal, illegal);
    return 0;
}
