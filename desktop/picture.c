/* What is to be seen of a night: the count, the active presets and limits, and the marks, in columns. */
#include "picture.h"

uint32_t picture_column(const struct night *night, uint32_t place)
{
    uint32_t events = night_events(night);

    return events == 0 ? 0 : (uint32_t)((uint64_t)(place - night->run.from) * COLUMN_COUNT / events);
}

/* An active preset or limit; the low ones have no say in modes that only count up. */
static bool has_say(const int32_t *fields, int limit)
{
    int setting = HSC_HIP + limit;

    if (((uint32_t)fields[HSC_FLAGS] >> HSC_FLAG_LOADED & 1) == 0)
        return false;
    return (setting != HSC_LOP && setting != HSC_UNF) || fields[HSC_ACTIVE + HSC_MOD] >= HSC_MODE_DIRECTION;
}

/* The count and the limits, from this column on. */
static void note_state(struct picture *picture, uint32_t column, int32_t count, const int32_t *fields)
{
    curve_note(&picture->count, column, count);
    for (int limit = 0; limit < LIMIT_COUNT; limit++) {
        if (has_say(fields, limit))
            curve_note(&picture->limits[limit], column, fields[HSC_ACTIVE + HSC_HIP + limit]);
        else
            curve_leave(&picture->limits[limit], column);
    }
}

/* A mark has its column; a blank event has all up to the next event's. */
static void note_marks(struct picture *picture, const struct night *night, uint32_t place, unsigned set)
{
    uint32_t column = picture_column(night, place);

    for (int mark = 0; mark < MARK_COUNT; mark++) {
        if ((set & MARKED(mark)) != 0) {
            picture->marks[mark].count++;
            picture->marks[mark].at[column] = true;
        }
    }
    if ((set & MARKED(MARK_BLANK)) != 0)
        while (++column < picture_column(night, place + 1))
            picture->marks[MARK_BLANK].at[column] = true;
}

enum outcome picture_take(struct picture *picture, const struct night *night)
{
    unsigned before = 0;
    struct walk walk;

    *picture = (struct picture){.gaps = 0};
    walk_begin(&walk, night->before);
    note_state(picture, 0, night->counts[0], walk.fields);
    for (uint32_t i = 0; i < night_events(night); i++) {
        uint32_t place = night->run.from + i;
        unsigned set = walk_take(&walk, image_event(night->image, place));

        note_state(picture, picture_column(night, place), night->counts[i + 1], walk.fields);
        note_marks(picture, night, place, set);
        if ((set & ~before & MARKED(MARK_BLANK)) != 0)
            picture->gaps++;
        before = set;
    }
    return walk.status == HSC_DONE ? DONE : tell_refusal(night->image->path, walk.status);
}
