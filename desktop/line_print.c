/* One event printed as a line of text: its place, its words, its stamp. */
#include "event.h"
#include "form.h"
#include "line.h"
#include "words.h"

#include <inttypes.h>

static void print_inputs(FILE *stream, int32_t levels)
{
    for (int input = 0; input < HSC_INPUT_COUNT; input++)
        if (levels >> input & 1)
            fprintf(stream, " %s", INPUT_NAMES[input]);
    if (levels == 0)
        fprintf(stream, " none");
}

static void print_value(FILE *stream, enum notation notation, int32_t value)
{
    switch (notation) {
    case NO_VALUE:
        break;
    case DECIMAL:
        fprintf(stream, " %" PRId32, value);
        break;
    case HEXADECIMAL:
        fprintf(stream, " 0x%04" PRIx32, (uint32_t)value);
        break;
    case INPUT_LIST:
        print_inputs(stream, value);
        break;
    }
}

void line_print(FILE *stream, const struct line *line)
{
    const struct form *form = form_of(event_kind(line->event), event_sub(line->event));

    if (line->placed)
        fprintf(stream, "%" PRIu32 "  ", line->place);
    fprintf(stream, "%s", form->verb);
    if (form->name != NULL)
        fprintf(stream, " %s", form->name);
    print_value(stream, form->notation, event_value(line->event));
    if (line->stamped)
        fprintf(stream, "  stamp %" PRIu32, event_stamp(line->event));
    fprintf(stream, "\n");
}
