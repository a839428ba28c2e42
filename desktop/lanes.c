/* The marks of a picture, in a lane for each kind. */
#include "lanes.h"

#include "style.h"

enum {
    BAR_HEIGHT = 10, /* of blank events, in their lane */
    MOST_GUIDES = 20 /* so many marks of a kind have a line down through the frame */
};

/* One band for each row of columns that are marked, so high from this top. */
static void print_bands(const struct sheet *sheet, const struct marks *marks, int top, int height)
{
    int end;

    for (int start = 0; start < COLUMN_COUNT; start = end) {
        for (end = start + 1; end < COLUMN_COUNT && marks->at[end] == marks->at[start];)
            end++;
        if (marks->at[start])
            fprintf(sheet->stream, "M%d %dh%dv%dh-%dz", PLOT_LEFT + start, top, end - start, height, end - start);
    }
}

void lanes_shade(const struct sheet *sheet)
{
    const struct marks *blanks = &sheet->picture->marks[MARK_BLANK];

    if (blanks->count == 0)
        return;
    fprintf(sheet->stream, "<path id=\"gaps\" fill=\"" GAP_COLOUR "\" d=\"");
    print_bands(sheet, blanks, sheet->top, FRAME_HEIGHT);
    fprintf(sheet->stream, "\"/>\n");
}

/* Each mark begins where the one before did, and so far across. */
static void print_marks(const struct sheet *sheet, enum mark mark, int middle)
{
    const struct mark_style *style = &MARK_STYLES[mark];
    int before = 0;

    fprintf(sheet->stream, "M%d %d", PLOT_LEFT + style->across, middle + style->down);
    for (int i = 0; i < COLUMN_COUNT; i++) {
        if (sheet->picture->marks[mark].at[i]) {
            fprintf(sheet->stream, "m%d 0%s", i - before, style->outline);
            before = i;
        }
    }
}

static void print_guides(const struct sheet *sheet, enum mark mark)
{
    fprintf(sheet->stream, "<path stroke=\"%s\" stroke-dasharray=\"1 4\" d=\"", MARK_STYLES[mark].colour);
    for (int i = 0; i < COLUMN_COUNT; i++)
        if (sheet->picture->marks[mark].at[i])
            fprintf(sheet->stream, "M%d %dv%d", PLOT_LEFT + i, sheet->top, FRAME_HEIGHT);
    fprintf(sheet->stream, "\"/>\n");
}

static void print_lane(const struct sheet *sheet, enum mark mark, int middle)
{
    const struct mark_style *style = &MARK_STYLES[mark];
    const struct marks *marks = &sheet->picture->marks[mark];

    fprintf(sheet->stream, "<text x=\"%d\" y=\"%d\" text-anchor=\"end\">%s</text>\n", FRAME_LEFT - 8, middle + 4,
            style->lane);
    fprintf(sheet->stream, "<path stroke=\"#ddd\" d=\"M%d %dH%d\"/>\n", FRAME_LEFT, middle, FRAME_RIGHT);
    fprintf(sheet->stream, "<path id=\"%s\" fill=\"%s\" d=\"", style->name, style->colour);
    if (mark == MARK_BLANK)
        print_bands(sheet, marks, middle - BAR_HEIGHT / 2, BAR_HEIGHT);
    else
        print_marks(sheet, mark, middle);
    fprintf(sheet->stream, "\"/>\n");
    if (mark != MARK_BLANK && marks->count <= MOST_GUIDES)
        print_guides(sheet, mark);
}

void lanes_print(const struct sheet *sheet)
{
    int middle = LANES_AT + LANE_HEIGHT / 2;

    for (int mark = 0; mark < MARK_COUNT; mark++) {
        if (sheet->picture->marks[mark].count > 0) {
            print_lane(sheet, (enum mark)mark, middle);
            middle += LANE_HEIGHT;
        }
    }
}
