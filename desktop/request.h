/* What the words after a command's name ask for: its options and operands. */
#ifndef REQUEST_H
#define REQUEST_H

#include "tell.h"

#include <stdbool.h>

/* The options; a command takes some of them, as its row in command.c says. */
enum option {
    OPTION_ALL,
    OPTION_BARE,
    OPTION_CHECK,
    OPTION_EVENT_COUNT,
    OPTION_CSV,
    OPTION_DRY_RUN,
    OPTION_EVENTS,
    OPTION_FROM,
    OPTION_GAPS,
    OPTION_HELP,
    OPTION_OUT,
    OPTION_STAMPS,
    OPTION_COUNT
};

/* One option in a row's set. */
#define TAKES(option) (1u << (option))

struct option_text {
    const char *word;
    const char *value; /* the name of its value; NULL where it takes none */
    const char *purpose;
};

struct request {
    const char *options[OPTION_COUNT]; /* NULL where not given; else the value, or the word where it takes none */
    int operand_count;
    char *const *operands;
};

extern const struct option_text OPTION_TEXTS[];

/*
 * Reads the words. Options of the set stand anywhere before "--"; "-" alone is an operand. The operands are moved to
 * the front of the words. Anything else is told and fails.
 */
enum outcome request_parse(struct request *request, unsigned set, int count, char **words);

bool request_has(const struct request *request, enum option option);

#endif
