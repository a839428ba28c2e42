/* Where the parts of a picture stand on its sheet. Lengths are in units of the SVG: pixels, where it is not scaled. */
#ifndef SHEET_H
#define SHEET_H

#include "picture.h"

#include <stdbool.h>
#include <stdint.h>
#include <stdio.h>

enum {
    SHEET_WIDTH = 1130,
    FRAME_LEFT = 110,
    INSET = 18, /* between the frame and the curve */
    PLOT_LEFT = FRAME_LEFT + INSET,
    PLOT_RIGHT = PLOT_LEFT + COLUMN_COUNT,
    FRAME_RIGHT = PLOT_RIGHT + INSET,
    FRAME_MIDDLE = (FRAME_LEFT + FRAME_RIGHT) / 2,
    PLOT_HEIGHT = 400,
    FRAME_HEIGHT = PLOT_HEIGHT + 2 * INSET,
    TITLE_AT = 32,
    SUBTITLE_AT = 54,
    LANES_AT = 68,
    LANE_HEIGHT = 17,
    HEADING_HEIGHT = 22, /* between the lanes and the frame */
    LEGEND_BELOW = 68,   /* the first row's middle, below the frame */
    ROW_HEIGHT = 21
};

struct range {
    int64_t lowest;
    int64_t highest;
};

struct sheet {
    FILE *stream;
    const struct night *night;
    const struct picture *picture;
    struct range counts;
    int64_t low; /* of the vertical axis, like high a multiple of the step between its round numbers */
    int64_t high;
    int64_t step;
    int top; /* of the frame */
};

/* Lays the picture out: the counts decide the vertical axis, with presets and limits that are near them. */
struct sheet sheet_of(FILE *stream, const struct night *night, const struct picture *picture);

int sheet_bottom(const struct sheet *sheet);

/* How far below the sheet's top a count stands that the vertical axis shows. */
int sheet_height(const struct sheet *sheet, int64_t count);

/* Whether the vertical axis shows this count. */
bool sheet_shows(const struct sheet *sheet, int64_t count);

/* How a preset or limit stands to what the vertical axis shows. */
struct reach {
    bool shown; /* within it */
    bool above;
    bool below;
    int32_t highest;
    int32_t lowest;
};

/* All is false where it is never active. */
struct reach sheet_reach(const struct sheet *sheet, int limit);

#endif
