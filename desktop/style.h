/* How the parts of a picture look: each has its colour and its shape, so that it is told in black and white too. */
#ifndef STYLE_H
#define STYLE_H

#include "picture.h"

#include <stdbool.h>

#define COUNT_COLOUR "#0072b2"
#define GAP_COLOUR "#f1ead6"

/* A line that stands for a preset or limit. */
struct line_style {
    const char *colour;
    const char *dashes;
    const char *words;
    bool above; /* its label is above the line, else below */
    bool first; /* and at its beginning, else at its end */
};

/* By preset and limit, from HIP on. */
extern const struct line_style LIMIT_STYLES[LIMIT_COUNT];

/* A mark: the outline from its first corner, which stands so far from its middle. */
struct mark_style {
    const char *name;
    const char *colour;
    int across;
    int down;
    const char *outline;
    const char *lane; /* a word or two for the lane that has these marks */
    const char *noun;
    const char *rest; /* of the legend's words, after the noun */
};

/* By enum mark. */
extern const struct mark_style MARK_STYLES[MARK_COUNT];

#endif
