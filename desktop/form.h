/* The words of every event that can be legal: hsc-events(5). */
#ifndef FORM_H
#define FORM_H

#include <stddef.h>
#include <stdint.h>

/* How a value is written. */
enum notation {
    NO_VALUE,
    DECIMAL,
    HEXADECIMAL,
    INPUT_LIST
};

struct form {
    const char *verb;
    const char *name; /* of what is written; NULL where the verb says it all */
    uint8_t kind;
    uint8_t sub;
    enum notation notation;
    const char *expected; /* the values that are legal, in words */
};

/* Forms of one verb stand together. */
extern const struct form FORMS[];
extern const size_t FORM_COUNT;

/* NULL where no event of this kind and sub is legal. */
const struct form *form_of(uint8_t kind, uint8_t sub);

#endif
