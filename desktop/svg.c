/* A night as a picture: SVG 1.1, which stands alone. All lengths are whole numbers. */
#include "svg.h"

#include "axes.h"
#include "lanes.h"
#include "legend.h"
#include "plot.h"
#include "sheet.h"
#include "words.h"
#include "xml.h"

#include <inttypes.h>
#include <string.h>

/* So many characters of a file's name have room in the title. */
#define TITLE_LENGTH 72

/* The image's name, without its folder. */
static const char *name_of(const struct image *image)
{
    const char *slash = strrchr(image->path, '/');

    return slash == NULL ? image->path : slash + 1;
}

static void print_events(const struct sheet *sheet)
{
    const struct night *night = sheet->night;
    uint32_t all = night->image->events;

    if (night_events(night) == 0)
        fprintf(sheet->stream, "no events from place %" PRIu32 ", of %" PRIu32, night->run.from, all);
    else
        fprintf(sheet->stream, "events %" PRIu32 " to %" PRIu32 " of %" PRIu32, night->run.from, night->run.end - 1,
                all);
}

static void print_numbers(const struct sheet *sheet)
{
    const struct night *night = sheet->night;

    print_events(sheet);
    fprintf(sheet->stream, ", %" PRIu32 " snapshot%s, spacing %" PRIu32, night->image->snapshots,
            plural(night->image->snapshots), night->image->spacing);
    fprintf(sheet->stream, "; count %" PRId32 " before, %" PRId32 " after, lowest %" PRId64 ", highest %" PRId64,
            night->counts[0], night->counts[night_events(night)], sheet->counts.lowest, sheet->counts.highest);
}

static void print_titles(const struct sheet *sheet)
{
    const char *name = name_of(sheet->night->image);

    fprintf(sheet->stream, "<text x=\"%d\" y=\"%d\" font-size=\"18\" font-weight=\"bold\">", FRAME_LEFT, TITLE_AT);
    xml_print(sheet->stream, name, TITLE_LENGTH);
    fprintf(sheet->stream, "</text>\n<text x=\"%d\" y=\"%d\">", FRAME_LEFT, SUBTITLE_AT);
    print_numbers(sheet);
    fprintf(sheet->stream, "</text>\n");
}

static void print_head(const struct sheet *sheet)
{
    int height = sheet_bottom(sheet) + LEGEND_BELOW + ROW_HEIGHT * legend_rows(sheet);

    fprintf(sheet->stream,
            "<?xml version=\"1.0\" encoding=\"UTF-8\"?>\n"
            "<svg xmlns=\"http://www.w3.org/2000/svg\" version=\"1.1\" width=\"%d\" height=\"%d\" "
            "viewBox=\"0 0 %d %d\" font-family=\"sans-serif\" font-size=\"12\" fill=\"#222\">\n<title>",
            SHEET_WIDTH, height, SHEET_WIDTH, height);
    xml_print(sheet->stream, name_of(sheet->night->image), SIZE_MAX);
    fprintf(sheet->stream, ": ");
    print_events(sheet);
    fprintf(sheet->stream, "</title>\n<rect width=\"%d\" height=\"%d\" fill=\"#fff\"/>\n", SHEET_WIDTH, height);
}

void svg_print(FILE *stream, const struct night *night, const struct picture *picture)
{
    const struct sheet sheet = sheet_of(stream, night, picture);

    print_head(&sheet);
    print_titles(&sheet);
    lanes_shade(&sheet);
    axes_print(&sheet);
    plot_limits(&sheet);
    lanes_print(&sheet);
    plot_count(&sheet);
    plot_labels(&sheet);
    legend_print(&sheet);
    fprintf(stream, "</svg>\n");
}
