/* A line of text that is read word by word. */
#ifndef CURSOR_H
#define CURSOR_H

#include "tell.h"

#include <stdbool.h>
#include <stddef.h>
#include <stdint.h>

struct cursor {
    const char *path; /* of the text */
    size_t line;      /* counted from 1 */
    const char *at;
    const char *end;
};

struct word {
    const char *start;
    size_t length; /* 0: the line has no more */
};

/*
 * The next word. Blanks, tabs, commas, semicolons, double quotes and carriage returns stand between words; what follows
 * a number sign is no part of the line.
 */
struct word cursor_next(struct cursor *cursor);

/* The word that cursor_next will answer. */
struct word cursor_peek(const struct cursor *cursor);

/* Whether the word is this one, in capitals or not. */
bool word_is(struct word word, const char *name);

/*
 * The number that the word is: decimal with or without a sign, or hexadecimal after 0x. False where it is none, or is
 * not between the two.
 */
bool word_number(struct word word, int64_t least, int64_t most, int64_t *number);

/* Tells what was found on the line and what was expected instead, and answers REFUSED. */
enum outcome cursor_refuse(const struct cursor *cursor, struct word found, const char *expected);

#endif
