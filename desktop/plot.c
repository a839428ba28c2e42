/* The curves within the frame of a picture: the count, and the active presets and limits. */
#include "plot.h"

#include "style.h"
#include "words.h"

#include <inttypes.h>

/* About the width of a character of a label. */
#define CHARACTER_WIDTH 7

/* The end of a path that goes from left to right. */
struct pen {
    const struct sheet *sheet;
    bool down;
    int across;
    int height;
};

static void draw_across(struct pen *pen, int across)
{
    if (pen->down && pen->across < across)
        fprintf(pen->sheet->stream, "H%d", across);
    pen->across = across;
}

static void lift(struct pen *pen, int across)
{
    draw_across(pen, across);
    pen->down = false;
}

/* Here the curve comes to this value; one that the picture does not show lifts the pen. */
static void draw_to(struct pen *pen, int across, int32_t value)
{
    int height;

    if (!sheet_shows(pen->sheet, value)) {
        lift(pen, across);
        return;
    }
    height = sheet_height(pen->sheet, value);
    if (pen->down && height == pen->height)
        return;
    draw_across(pen, across);
    if (pen->down)
        fprintf(pen->sheet->stream, "V%d", height);
    else
        fprintf(pen->sheet->stream, "M%d %d", across, height);
    pen->down = true;
    pen->height = height;
}

/* The lowest and the highest, last the one that is nearer to the column's end: so a mere rise or fall is one line. */
static void draw_column(struct pen *pen, int across, const struct column *column)
{
    bool falls = (int64_t)column->last - column->lowest < (int64_t)column->highest - column->last;

    draw_to(pen, across, falls ? column->highest : column->lowest);
    draw_to(pen, across, falls ? column->lowest : column->highest);
    draw_to(pen, across, column->last);
}

static void draw_curve(struct pen *pen, const struct curve *curve)
{
    for (int i = 0; i < COLUMN_COUNT; i++) {
        if (curve->columns[i].any)
            draw_column(pen, PLOT_LEFT + i, &curve->columns[i]);
        if (curve->columns[i].out)
            lift(pen, PLOT_LEFT + i);
    }
    lift(pen, PLOT_RIGHT);
}

void plot_limits(const struct sheet *sheet)
{
    for (int limit = 0; limit < LIMIT_COUNT; limit++) {
        const struct line_style *style = &LIMIT_STYLES[limit];
        struct pen pen = {.sheet = sheet};

        if (sheet_reach(sheet, limit).shown) {
            fprintf(sheet->stream, "<path id=\"%s\" fill=\"none\" stroke=\"%s\" stroke-width=\"1.5\" ",
                    SETTING_NAMES[HSC_HIP + limit], style->colour);
            fprintf(sheet->stream, "stroke-dasharray=\"%s\" d=\"", style->dashes);
            draw_curve(&pen, &sheet->picture->limits[limit]);
            fprintf(sheet->stream, "\"/>\n");
        }
    }
}

/* It begins at the frame, with the count before the first event. */
void plot_count(const struct sheet *sheet)
{
    struct pen pen = {.sheet = sheet};

    fprintf(sheet->stream, "<path id=\"count\" fill=\"none\" stroke=\"" COUNT_COLOUR "\" stroke-width=\"1.5\" d=\"");
    draw_to(&pen, FRAME_LEFT, sheet->night->counts[0]);
    draw_curve(&pen, &sheet->picture->count);
    fprintf(sheet->stream, "\"/>\n");
    if (night_events(sheet->night) == 0)
        fprintf(sheet->stream, "<text x=\"%d\" y=\"%d\" text-anchor=\"middle\">no events</text>\n", FRAME_MIDDLE,
                sheet->top + FRAME_HEIGHT / 4);
}

/*
 * A label has a white edge, so that it can be read over lines. A line that is too short for it has none; one with the
 * label at its end leaves room for another at its beginning.
 */
static void print_label(const struct sheet *sheet, int limit, const struct segment *segment)
{
    const struct line_style *style = &LIMIT_STYLES[limit];
    int across = PLOT_LEFT + (int)(style->first ? segment->start + 4 : segment->end - 4);
    int height = sheet_height(sheet, segment->value) + (style->above ? -4 : 12);
    char text[96];
    int length = snprintf(text, sizeof text, "%s %" PRId32, SETTING_NAMES[HSC_HIP + limit], segment->value);

    if ((int)(segment->end - segment->start) < (style->first ? 1 : 2) * (CHARACTER_WIDTH * length + 8))
        return;
    fprintf(sheet->stream, "<g text-anchor=\"%s\">", style->first ? "start" : "end");
    fprintf(sheet->stream, "<text x=\"%d\" y=\"%d\" fill=\"none\" stroke=\"#fff\" stroke-width=\"3\">%s</text>", across,
            height, text);
    fprintf(sheet->stream, "<text x=\"%d\" y=\"%d\" fill=\"%s\">%s</text></g>\n", across, height, style->colour, text);
}

void plot_labels(const struct sheet *sheet)
{
    for (int limit = 0; limit < LIMIT_COUNT; limit++) {
        struct segment segment = {.end = 0};

        while (curve_next(&sheet->picture->limits[limit], &segment))
            if (sheet_shows(sheet, segment.value))
                print_label(sheet, limit, &segment);
    }
}
