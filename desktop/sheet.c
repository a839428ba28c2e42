/* Where the parts of a picture stand on its sheet. */
#include "sheet.h"

#include "scale.h"

/* At most so many steps along the vertical axis. */
#define MOST_STEPS 8

/* Presets and limits are near the counts if they are not farther than this, or half of what the counts span. */
#define NEAR 10

static void widen(struct range *range, int64_t number)
{
    if (number < range->lowest)
        range->lowest = number;
    if (number > range->highest)
        range->highest = number;
}

static struct range range_of_counts(const struct night *night)
{
    struct range range = {night->counts[0], night->counts[0]};

    for (uint32_t i = 0; i < night_events(night); i++)
        widen(&range, night->counts[i + 1]);
    return range;
}

/* The counts, and those presets and limits that are near them. */
static struct range range_of_axis(const struct range *counts, const struct picture *picture)
{
    struct range range = *counts;
    int64_t half = (counts->highest - counts->lowest) / 2;
    int64_t near = half < NEAR ? NEAR : half;

    for (int limit = 0; limit < LIMIT_COUNT; limit++) {
        struct segment segment = {.end = 0};

        while (curve_next(&picture->limits[limit], &segment))
            if (segment.value >= counts->lowest - near && segment.value <= counts->highest + near)
                widen(&range, segment.value);
    }
    if (range.lowest == range.highest)
        range = (struct range){range.lowest - 1, range.highest + 1};
    return range;
}

static int lane_count(const struct picture *picture)
{
    int lanes = 0;

    for (int mark = 0; mark < MARK_COUNT; mark++)
        lanes += picture->marks[mark].count > 0;
    return lanes;
}

struct sheet sheet_of(FILE *stream, const struct night *night, const struct picture *picture)
{
    struct sheet sheet = {.stream = stream, .night = night, .picture = picture, .counts = range_of_counts(night)};
    struct range range = range_of_axis(&sheet.counts, picture);

    sheet.step = scale_step(range.highest - range.lowest, MOST_STEPS);
    sheet.low = scale_below(range.lowest, sheet.step);
    sheet.high = scale_above(range.highest, sheet.step);
    sheet.top = LANES_AT + LANE_HEIGHT * lane_count(picture) + HEADING_HEIGHT;
    return sheet;
}

int sheet_bottom(const struct sheet *sheet)
{
    return sheet->top + FRAME_HEIGHT;
}

int sheet_height(const struct sheet *sheet, int64_t count)
{
    int64_t span = sheet->high - sheet->low;

    return sheet->top + INSET + (int)(((sheet->high - count) * PLOT_HEIGHT + span / 2) / span);
}

bool sheet_shows(const struct sheet *sheet, int64_t count)
{
    return count >= sheet->low && count <= sheet->high;
}

struct reach sheet_reach(const struct sheet *sheet, int limit)
{
    struct reach reach = {.highest = INT32_MIN, .lowest = INT32_MAX};

    for (int i = 0; i < COLUMN_COUNT; i++) {
        const struct column *column = &sheet->picture->limits[limit].columns[i];

        if (column->any) {
            reach.shown |= sheet_shows(sheet, column->lowest) || sheet_shows(sheet, column->highest);
            reach.above |= column->highest > sheet->high;
            reach.below |= column->lowest < sheet->low;
            reach.highest = column->highest > reach.highest ? column->highest : reach.highest;
            reach.lowest = column->lowest < reach.lowest ? column->lowest : reach.lowest;
        }
    }
    return reach;
}
