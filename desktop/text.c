/* A text of events. */
#include "text.h"

#include "cursor.h"
#include "line.h"

#include <inttypes.h>
#include <stdio.h>
#include <stdlib.h>
#include <string.h>

/* Some programs begin every text with this mark of UTF-8. */
#define MARK "\xef\xbb\xbf"

/* The places that lines name count on by one. */
static enum outcome follow_place(struct encoding *encoding, const struct cursor *beginning, const struct line *line)
{
    char expected[64];

    if (!line->placed)
        return DONE;
    if (!encoding->placed)
        encoding->start = (int64_t)line->place - encoding->count;
    encoding->placed = true;
    if (line->place == encoding->start + encoding->count)
        return DONE;
    snprintf(expected, sizeof expected, "place %" PRId64 ", or none", encoding->start + encoding->count);
    return cursor_refuse(beginning, cursor_peek(beginning), expected);
}

static enum outcome add_line(struct encoding *encoding, const struct cursor *beginning)
{
    struct cursor cursor = *beginning;
    struct word first = cursor_peek(&cursor);
    struct line line;
    enum outcome outcome;

    if (first.length == 0)
        return DONE;
    if (encoding->count == HSC_MAX_EVENTS)
        return cursor_refuse(&cursor, first, "no more events, for an image has at most 1048576");
    outcome = line_parse(&cursor, &line);
    if (outcome == DONE)
        outcome = follow_place(encoding, beginning, &line);
    if (outcome == DONE)
        memcpy(encoding->events + (size_t)HSC_EVENT_SIZE * encoding->count++, line.event, HSC_EVENT_SIZE);
    return outcome;
}

static const char *line_end(const char *at, const char *end)
{
    const char *newline = memchr(at, '\n', (size_t)(end - at));

    return newline == NULL ? end : newline;
}

static enum outcome add_lines(struct encoding *encoding, const char *path, const char *at, const char *end)
{
    struct cursor cursor = {.path = path, .line = 1, .at = at};
    enum outcome outcome = DONE;

    while (outcome == DONE && cursor.at < end) {
        cursor.end = line_end(cursor.at, end);
        outcome = add_line(encoding, &cursor);
        cursor.at = cursor.end < end ? cursor.end + 1 : end;
        cursor.line++;
    }
    return outcome;
}

/* No more events than the text has lines, or an image can have. */
static size_t most_events(const char *at, const char *end)
{
    size_t lines = 1;

    for (at = line_end(at, end); at < end && lines < HSC_MAX_EVENTS; at = line_end(at + 1, end))
        lines++;
    return lines;
}

enum outcome text_encode(struct encoding *encoding, const struct contents *text)
{
    const char *at = (const char *)text->bytes;
    const char *end = at + text->size;
    enum outcome outcome;

    if (text->size > TEXT_LONGEST)
        return tell_failure(text->path, "the text is longer than any that an image needs");
    if (text->size >= strlen(MARK) && memcmp(at, MARK, strlen(MARK)) == 0)
        at += strlen(MARK);
    *encoding = (struct encoding){.events = malloc(most_events(at, end) * HSC_EVENT_SIZE)};
    if (encoding->events == NULL)
        return tell_errno(text->path, "no memory for the events");
    outcome = add_lines(encoding, text->path, at, end);
    if (outcome != DONE)
        free(encoding->events);
    return outcome;
}
