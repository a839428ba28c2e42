/* The legend of a picture: entries in two columns, each with a sample of what it tells of. */
#include "legend.h"

#include "style.h"
#include "words.h"

#include <inttypes.h>

enum {
    ENTRY_WIDTH = COLUMN_COUNT / 2,
    SAMPLE_WIDTH = 30
};

/* The entries so far, and where the next one stands. */
struct legend {
    const struct sheet *sheet;
    int entries;
    int across;
    int middle;
};

static void next_entry(struct legend *legend)
{
    legend->across = PLOT_LEFT + legend->entries % 2 * ENTRY_WIDTH;
    legend->middle = sheet_bottom(legend->sheet) + LEGEND_BELOW + legend->entries / 2 * ROW_HEIGHT;
    legend->entries++;
}

/* The text's words follow, and the end of their element. */
static void begin_text(const struct legend *legend)
{
    fprintf(legend->sheet->stream, "<text x=\"%d\" y=\"%d\">", legend->across + SAMPLE_WIDTH + 8, legend->middle + 4);
}

static void print_sample_line(const struct legend *legend, const char *colour, const char *dashes)
{
    fprintf(legend->sheet->stream, "<path fill=\"none\" stroke=\"%s\" stroke-width=\"1.5\" ", colour);
    fprintf(legend->sheet->stream, "stroke-dasharray=\"%s\" d=\"M%d %dh%d\"/>\n", dashes, legend->across,
            legend->middle, SAMPLE_WIDTH);
}

static void print_count(struct legend *legend)
{
    uint32_t events = night_events(legend->sheet->night);

    next_entry(legend);
    print_sample_line(legend, COUNT_COLOUR, "none");
    begin_text(legend);
    fprintf(legend->sheet->stream, "count");
    if (events > COLUMN_COUNT)
        fprintf(legend->sheet->stream, ", the lowest and highest of up to %" PRIu32 " events in a column",
                (events + COLUMN_COUNT - 1) / COLUMN_COUNT);
    fprintf(legend->sheet->stream, "</text>\n");
}

static bool is_active(struct reach reach)
{
    return reach.shown || reach.above || reach.below;
}

static void print_limit(struct legend *legend, int limit)
{
    FILE *stream = legend->sheet->stream;
    const struct reach reach = sheet_reach(legend->sheet, limit);

    if (!is_active(reach))
        return;
    next_entry(legend);
    if (reach.shown)
        print_sample_line(legend, LIMIT_STYLES[limit].colour, LIMIT_STYLES[limit].dashes);
    begin_text(legend);
    fprintf(stream, "%s", SETTING_NAMES[HSC_HIP + limit]);
    if (reach.shown)
        fprintf(stream, ", %s%s", LIMIT_STYLES[limit].words, reach.above || reach.below ? ", also" : "");
    if (reach.above)
        fprintf(stream, " %" PRId32 ", above the picture", reach.highest);
    if (reach.below)
        fprintf(stream, "%s %" PRId32 ", below the picture", reach.above ? "," : "", reach.lowest);
    fprintf(stream, "</text>\n");
}

static int marked_columns(const struct marks *marks)
{
    int columns = 0;

    for (int i = 0; i < COLUMN_COUNT; i++)
        columns += marks->at[i];
    return columns;
}

static void print_mark(struct legend *legend, enum mark mark)
{
    FILE *stream = legend->sheet->stream;
    const struct mark_style *style = &MARK_STYLES[mark];
    const struct marks *marks = &legend->sheet->picture->marks[mark];
    uint32_t gaps = legend->sheet->picture->gaps;

    next_entry(legend);
    fprintf(stream, "<path fill=\"%s\" d=\"M%d %d%s\"/>\n", style->colour,
            legend->across + SAMPLE_WIDTH / 2 + style->across, legend->middle + style->down, style->outline);
    begin_text(legend);
    fprintf(stream, "%" PRIu32 " %s%s%s", marks->count, style->noun, plural(marks->count), style->rest);
    if (mark == MARK_BLANK)
        fprintf(stream, " in %" PRIu32 " gap%s, shaded", gaps, plural(gaps));
    else if ((uint32_t)marked_columns(marks) < marks->count)
        fprintf(stream, ", in %d column%s", marked_columns(marks), plural((size_t)marked_columns(marks)));
    fprintf(stream, "</text>\n");
}

int legend_rows(const struct sheet *sheet)
{
    int entries = 1;

    for (int limit = 0; limit < LIMIT_COUNT; limit++)
        entries += is_active(sheet_reach(sheet, limit));
    for (int mark = 0; mark < MARK_COUNT; mark++)
        entries += sheet->picture->marks[mark].count > 0;
    return (entries + 1) / 2;
}

void legend_print(const struct sheet *sheet)
{
    struct legend legend = {.sheet = sheet};

    print_count(&legend);
    for (int limit = 0; limit < LIMIT_COUNT; limit++)
        print_limit(&legend, limit);
    for (int mark = 0; mark < MARK_COUNT; mark++)
        if (sheet->picture->marks[mark].count > 0)
            print_mark(&legend, (enum mark)mark);
}
