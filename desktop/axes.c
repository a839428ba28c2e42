/* The axes of a picture, with round numbers. */
#include "axes.h"

#include "scale.h"

#include <inttypes.h>

/* At most so many steps along the horizontal axis. */
#define MOST_STEPS 10

/* Digits in threes, with spaces between that do not break. */
static void print_number(FILE *stream, int64_t number)
{
    int64_t unit = 1;

    if (number < 0)
        fprintf(stream, "-");
    number = number < 0 ? -number : number;
    while (number / unit >= 1000)
        unit *= 1000;
    fprintf(stream, "%" PRId64, number / unit);
    while (unit > 1) {
        number %= unit;
        unit /= 1000;
        fprintf(stream, "&#160;%03" PRId64, number / unit);
    }
}

static int place_across(const struct sheet *sheet, int64_t place)
{
    return PLOT_LEFT + (int)picture_column(sheet->night, (uint32_t)place);
}

static void print_grid(const struct sheet *sheet, int64_t first, int64_t step)
{
    FILE *stream = sheet->stream;

    fprintf(stream, "<path stroke=\"#ddd\" fill=\"none\" shape-rendering=\"crispEdges\" d=\"");
    for (int64_t count = sheet->low; count <= sheet->high; count += sheet->step)
        fprintf(stream, "M%d %dH%d", FRAME_LEFT, sheet_height(sheet, count), FRAME_RIGHT);
    for (int64_t place = first; place <= sheet->night->run.end; place += step)
        fprintf(stream, "M%d %dv%d", place_across(sheet, place), sheet->top, FRAME_HEIGHT);
    fprintf(stream, "\"/>\n<path stroke=\"#888\" fill=\"none\" shape-rendering=\"crispEdges\" ");
    fprintf(stream, "d=\"M%d %dH%dv%dH%dz\"/>\n", FRAME_LEFT, sheet->top, FRAME_RIGHT, FRAME_HEIGHT, FRAME_LEFT);
}

static void print_counts(const struct sheet *sheet)
{
    fprintf(sheet->stream, "<g text-anchor=\"end\">\n");
    for (int64_t count = sheet->low; count <= sheet->high; count += sheet->step) {
        fprintf(sheet->stream, "<text x=\"%d\" y=\"%d\">", FRAME_LEFT - 8, sheet_height(sheet, count) + 4);
        print_number(sheet->stream, count);
        fprintf(sheet->stream, "</text>\n");
    }
    fprintf(sheet->stream, "</g>\n");
}

static void print_places(const struct sheet *sheet, int64_t first, int64_t step)
{
    fprintf(sheet->stream, "<g text-anchor=\"middle\">\n");
    for (int64_t place = first; place <= sheet->night->run.end; place += step) {
        fprintf(sheet->stream, "<text x=\"%d\" y=\"%d\">", place_across(sheet, place), sheet_bottom(sheet) + 19);
        print_number(sheet->stream, place);
        fprintf(sheet->stream, "</text>\n");
    }
    fprintf(sheet->stream, "<text x=\"%d\" y=\"%d\">place of the event</text>\n</g>\n", FRAME_MIDDLE,
            sheet_bottom(sheet) + 39);
}

void axes_print(const struct sheet *sheet)
{
    int64_t step = scale_step(night_events(sheet->night), MOST_STEPS);
    int64_t first = scale_above(sheet->night->run.from, step);

    print_grid(sheet, first, step);
    fprintf(sheet->stream, "<text x=\"%d\" y=\"%d\">count (ACC)</text>\n", FRAME_LEFT, sheet->top - 7);
    print_counts(sheet);
    print_places(sheet, first, step);
}
