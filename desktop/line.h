/* One event as a line of text: hsc-events(5). */
#ifndef LINE_H
#define LINE_H

#include "cursor.h"
#include "hsc.h"
#include "tell.h"

#include <stdbool.h>
#include <stdint.h>
#include <stdio.h>

struct line {
    bool placed; /* it names the event's place */
    uint32_t place;
    bool stamped; /* it names the event's stamp, which is else 0 */
    uint8_t event[HSC_EVENT_SIZE];
};

/* Prints the line of a legal event. */
void line_print(FILE *stream, const struct line *line);

/* Reads a line that has a word. What is no legal event is told, with what was expected, and refused. */
enum outcome line_parse(struct cursor *cursor, struct line *line);

#endif
