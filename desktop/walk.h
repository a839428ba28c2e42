/* The counter taken along a trace, event by event, with what each event does to it. */
#ifndef WALK_H
#define WALK_H

#include "hsc.h"

#include <stdint.h>

/* What is marked of an event. */
enum mark {
    MARK_OVERFLOW,
    MARK_UNDERFLOW,
    MARK_RETURN, /* back to 0 at HIP, in modes 0 and 1 */
    MARK_RESET,
    MARK_BLANK,
    MARK_COUNT
};

/* One mark in a set. */
#define MARKED(mark) (1u << (mark))

struct walk {
    uint8_t snapshot[HSC_SNAPSHOT_SIZE]; /* the state, but that OF, UF and MD are 0 */
    int32_t fields[HSC_FIELD_COUNT];     /* as the library reads it after the last event */
    uint64_t status;                     /* the first refusal of a call */
};

void walk_begin(struct walk *walk, const uint8_t state[HSC_SNAPSHOT_SIZE]);

/* Takes a legal event, and answers the set of its marks. */
unsigned walk_take(struct walk *walk, const uint8_t event[HSC_EVENT_SIZE]);

#endif
