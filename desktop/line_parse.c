/* One event read from a line of text: its place, its words, its stamp. */
#include "event.h"
#include "form.h"
#include "line.h"

#include <string.h>

/* Room for the names of all flags. */
#define LIST_SIZE 128

/* The list with one more name. */
static void add_name(char list[LIST_SIZE], const char *name)
{
    size_t length = strlen(list);

    snprintf(list + length, LIST_SIZE - length, "%s%s", length > 0 ? ", " : "", name);
}

static enum outcome refuse_verb(const struct cursor *cursor, struct word found)
{
    char verbs[LIST_SIZE] = "";

    for (size_t i = 0; i < FORM_COUNT; i++)
        if (i == 0 || strcmp(FORMS[i].verb, FORMS[i - 1].verb) != 0)
            add_name(verbs, FORMS[i].verb);
    return cursor_refuse(cursor, found, verbs);
}

static enum outcome refuse_name(const struct cursor *cursor, struct word found, const char *verb)
{
    char names[LIST_SIZE] = "";

    for (size_t i = 0; i < FORM_COUNT; i++)
        if (strcmp(FORMS[i].verb, verb) == 0)
            add_name(names, FORMS[i].name);
    return cursor_refuse(cursor, found, names);
}

static const struct form *form_with_verb(struct word verb)
{
    for (size_t i = 0; i < FORM_COUNT; i++)
        if (word_is(verb, FORMS[i].verb))
            return &FORMS[i];
    return NULL;
}

static const struct form *form_with_name(const char *verb, struct word name)
{
    for (size_t i = 0; i < FORM_COUNT; i++)
        if (strcmp(FORMS[i].verb, verb) == 0 && word_is(name, FORMS[i].name))
            return &FORMS[i];
    return NULL;
}

/* The form that the next word, or the next two, stand for. */
static enum outcome parse_form(struct cursor *cursor, const struct form **form)
{
    struct word word = cursor_next(cursor);
    const char *verb;

    *form = form_with_verb(word);
    if (*form == NULL)
        return refuse_verb(cursor, word);
    if ((*form)->name == NULL)
        return DONE;
    verb = (*form)->verb;
    word = cursor_next(cursor);
    *form = form_with_name(verb, word);
    return *form == NULL ? refuse_name(cursor, word, verb) : DONE;
}

static bool ends_value(struct word word)
{
    return word.length == 0 || word_is(word, "stamp");
}

/* Sets the bits of the inputs that are on. */
static enum outcome parse_inputs(struct cursor *cursor, const char *expected, int32_t *levels)
{
    struct word word = cursor_next(cursor);

    if (word_is(word, "none"))
        return DONE;
    for (;;) {
        int64_t input;

        if (!word_number(word, 0, HSC_INPUT_COUNT - 1, &input) || (*levels >> input & 1) != 0)
            return cursor_refuse(cursor, word, expected);
        *levels |= 1 << input;
        if (ends_value(cursor_peek(cursor)))
            return DONE;
        word = cursor_next(cursor);
    }
}

/* A number that fits into the event; whether it is legal there is the library's to say. */
static enum outcome parse_number(struct cursor *cursor, const struct form *form, int32_t *value)
{
    struct word word = cursor_next(cursor);
    uint8_t event[HSC_EVENT_SIZE];
    int64_t number;

    if (!word_number(word, INT32_MIN, INT32_MAX, &number))
        return cursor_refuse(cursor, word, form->expected);
    *value = (int32_t)number;
    event_write(event, form->kind, form->sub, *value, 0);
    if (hsc_event_check(event, sizeof event) != 1)
        return cursor_refuse(cursor, word, form->expected);
    return DONE;
}

/* Where the form has no value, it is left as it is. */
static enum outcome parse_value(struct cursor *cursor, const struct form *form, int32_t *value)
{
    if (form->notation == INPUT_LIST)
        return parse_inputs(cursor, form->expected, value);
    if (form->notation != NO_VALUE)
        return parse_number(cursor, form, value);
    return DONE;
}

/* The stamp, if there is one, and the end of the line. */
static enum outcome parse_stamp(struct cursor *cursor, struct line *line, uint32_t *stamp)
{
    struct word word = cursor_next(cursor);
    int64_t number = 0;

    line->stamped = word_is(word, "stamp");
    if (line->stamped) {
        word = cursor_next(cursor);
        if (!word_number(word, 0, UINT32_MAX, &number))
            return cursor_refuse(cursor, word, "a stamp from 0 to 4294967295");
        word = cursor_next(cursor);
    }
    *stamp = (uint32_t)number;
    if (word.length > 0)
        return cursor_refuse(cursor, word, line->stamped ? "nothing more" : "stamp, or nothing more");
    return DONE;
}

static void parse_place(struct cursor *cursor, struct line *line)
{
    int64_t number;

    line->placed = word_number(cursor_peek(cursor), 0, UINT32_MAX, &number);
    if (line->placed) {
        line->place = (uint32_t)number;
        cursor_next(cursor);
    }
}

enum outcome line_parse(struct cursor *cursor, struct line *line)
{
    const struct form *form = NULL;
    int32_t value = 0;
    uint32_t stamp = 0;
    enum outcome outcome;

    parse_place(cursor, line);
    outcome = parse_form(cursor, &form);
    if (outcome == DONE)
        outcome = parse_value(cursor, form, &value);
    if (outcome == DONE)
        outcome = parse_stamp(cursor, line, &stamp);
    if (outcome == DONE)
        event_write(line->event, form->kind, form->sub, value, stamp);
    return outcome;
}
