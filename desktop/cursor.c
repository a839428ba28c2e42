/* A line of text that is read word by word. */
#include "cursor.h"

#include <ctype.h>
#include <stdio.h>
#include <string.h>
#include <strings.h>

/* What a message shows of a word that is longer. */
#define MOST_SHOWN 40

static bool is_separator(char character)
{
    return character != '\0' && strchr(" \t\r,;\"", character) != NULL;
}

struct word cursor_next(struct cursor *cursor)
{
    struct word word;

    while (cursor->at < cursor->end && is_separator(*cursor->at))
        cursor->at++;
    word.start = cursor->at;
    while (cursor->at < cursor->end && !is_separator(*cursor->at) && *cursor->at != '#')
        cursor->at++;
    word.length = (size_t)(cursor->at - word.start);
    return word;
}

struct word cursor_peek(const struct cursor *cursor)
{
    struct cursor copy = *cursor;

    return cursor_next(&copy);
}

bool word_is(struct word word, const char *name)
{
    return word.length == strlen(name) && strncasecmp(word.start, name, word.length) == 0;
}

/* The word without its first characters. */
static struct word word_after(struct word word, size_t count)
{
    return (struct word){.start = word.start + count, .length = word.length - count};
}

/* The value of a digit in this base, or the base where it is none. */
static int64_t digit_value(char digit, int64_t base)
{
    static const char DIGITS[] = "0123456789abcdef";
    const char *place = memchr(DIGITS, tolower((unsigned char)digit), (size_t)base);

    return place == NULL ? base : place - DIGITS;
}

/* The number that the digits are, or 2^32 where they are more. False where they are no number. */
static bool magnitude(struct word digits, int64_t base, int64_t *number)
{
    const int64_t limit = INT64_C(1) << 32;

    *number = 0;
    for (size_t i = 0; i < digits.length; i++) {
        int64_t value = digit_value(digits.start[i], base);
        if (value == base)
            return false;
        *number = *number * base + value;
        if (*number > limit)
            *number = limit;
    }
    return digits.length > 0;
}

bool word_number(struct word word, int64_t least, int64_t most, int64_t *number)
{
    bool found;

    if (word.length > 2 && strncasecmp(word.start, "0x", 2) == 0) {
        found = magnitude(word_after(word, 2), 16, number);
    } else if (word.length > 1 && (*word.start == '-' || *word.start == '+')) {
        found = magnitude(word_after(word, 1), 10, number);
        if (*word.start == '-')
            *number = -*number;
    } else {
        found = magnitude(word, 10, number);
    }
    return found && *number >= least && *number <= most;
}

/* The word as a message can show it. */
static void show_word(struct word word, char shown[MOST_SHOWN + 1])
{
    size_t length = word.length < MOST_SHOWN ? word.length : MOST_SHOWN;

    for (size_t i = 0; i < length; i++)
        shown[i] = word.start[i] < ' ' || word.start[i] > '~' ? '?' : word.start[i];
    shown[length] = '\0';
}

enum outcome cursor_refuse(const struct cursor *cursor, struct word found, const char *expected)
{
    char shown[MOST_SHOWN + 1];

    show_word(found, shown);
    fprintf(stderr, "hsc: %s: line %zu: found %s%s%s, expected %s\n", cursor->path, cursor->line,
            found.length > 0 ? "'" : "nothing", shown, found.length > 0 ? "'" : "", expected);
    return REFUSED;
}
