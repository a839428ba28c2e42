/* hsc draw: the counts of a night as a picture, or as lines of place and count. */
#include "command.h"
#include "night.h"
#include "output.h"
#include "picture.h"
#include "svg.h"
#include "words.h"

#include <inttypes.h>
#include <stdio.h>
#include <stdlib.h>

/* What is drawn, all in memory. */
struct drawing {
    char *text;
    size_t size;
};

static void print_csv(FILE *stream, const struct night *night)
{
    fprintf(stream, "place,count\n");
    for (uint32_t i = 0; i < night_events(night); i++)
        fprintf(stream, "%" PRIu32 ",%" PRId32 "\n", night->run.from + i, night->counts[i + 1]);
}

static enum outcome print_picture(FILE *stream, const struct night *night)
{
    struct picture *picture = malloc(sizeof *picture);
    enum outcome outcome;

    if (picture == NULL)
        return tell_errno(night->image->path, "no memory for the picture");
    outcome = picture_take(picture, night);
    if (outcome == DONE)
        svg_print(stream, night, picture);
    free(picture);
    return outcome;
}

/* Where it is done, free(drawing->text) is owed. */
static enum outcome make_drawing(struct drawing *drawing, const struct night *night, bool csv)
{
    FILE *stream = open_memstream(&drawing->text, &drawing->size);
    enum outcome outcome = DONE;
    bool lost;

    if (stream == NULL)
        return tell_errno(night->image->path, "no memory for the drawing");
    if (csv)
        print_csv(stream, night);
    else
        outcome = print_picture(stream, night);
    lost = ferror(stream) != 0;
    lost |= fclose(stream) != 0 || drawing->text == NULL;
    if (outcome == DONE && lost)
        outcome = tell_errno(night->image->path, "no memory for the drawing");
    if (outcome != DONE)
        free(drawing->text);
    return outcome;
}

/* To standard output, where nothing else goes then, or to OUT with a line about it. */
static enum outcome write_drawing(const struct drawing *drawing, const struct night *night,
                                  const struct request *request)
{
    const char *out = request->options[OPTION_OUT];
    enum outcome outcome;

    if (out == NULL) {
        fwrite(drawing->text, 1, drawing->size, stdout);
        return DONE;
    }
    outcome = output_write(out, request->operands[0], (const uint8_t *)drawing->text, drawing->size);
    if (outcome != DONE)
        return outcome;
    printf("%" PRIu32 " event%s from place %" PRIu32 "\n", night_events(night), plural(night_events(night)),
           night->run.from);
    return output_tell(out);
}

static enum outcome draw(const struct image *image, const struct run *run, const struct request *request)
{
    struct night night;
    struct drawing drawing;
    enum outcome outcome = night_draw(&night, image, run);

    if (outcome != DONE)
        return outcome;
    outcome = make_drawing(&drawing, &night, request_has(request, OPTION_CSV));
    if (outcome == DONE) {
        outcome = write_drawing(&drawing, &night, request);
        free(drawing.text);
    }
    night_free(&night);
    return outcome;
}

enum outcome command_draw(const struct request *request)
{
    struct image image;
    struct run run;
    const struct given from = {"--from", request->options[OPTION_FROM]};
    const struct given count = {"--count", request->options[OPTION_EVENT_COUNT]};
    enum outcome outcome = image_load(&image, request->operands[0]);

    if (outcome != DONE)
        return outcome;
    outcome = run_parse(&run, &image, &from, &count);
    if (outcome == DONE)
        outcome = draw(&image, &run, request);
    image_free(&image);
    return outcome;
}
