/* An image that a command changes, and where it goes: over its file, to another one (-o), or nowhere (--dry-run). */
#include "edit.h"

#include <stdio.h>

static enum outcome open_in_place(struct edit *edit, const char *path)
{
    enum outcome outcome;

    if (file_is_standard(path))
        return tell_failure("standard input", "cannot be written over; give -o OUT or --dry-run");
    outcome = target_open_existing(&edit->target, path);
    if (outcome != DONE)
        return outcome;
    outcome = image_read(&edit->image, &edit->target.file);
    if (outcome != DONE)
        target_close(&edit->target);
    return outcome;
}

static bool same_place(const struct target *target, const struct image *image)
{
    return target->exists && file_is_same(&target->file.status, &image->status);
}

static enum outcome read_other(struct edit *edit, const char *path)
{
    enum outcome outcome = image_load(&edit->image, path);

    if (outcome == DONE && same_place(&edit->target, &edit->image)) {
        image_free(&edit->image);
        return tell_failure(edit->target.path, "is the image itself; without -o it is written over");
    }
    return outcome;
}

static enum outcome open_other(struct edit *edit, const char *path, const char *out)
{
    enum outcome outcome;

    if (file_is_standard(out))
        return tell_failure("-o", "takes the name of a file, not standard output");
    outcome = target_open(&edit->target, out);
    if (outcome != DONE)
        return outcome;
    outcome = read_other(edit, path);
    if (outcome != DONE)
        target_close(&edit->target);
    return outcome;
}

enum outcome edit_open(struct edit *edit, const struct request *request)
{
    const char *path = request->operands[0];

    *edit = (struct edit){.dry = request_has(request, OPTION_DRY_RUN), .other = request_has(request, OPTION_OUT)};
    if (edit->dry)
        return image_load(&edit->image, path);
    if (edit->other)
        return open_other(edit, path, request->options[OPTION_OUT]);
    return open_in_place(edit, path);
}

enum outcome edit_write(struct edit *edit)
{
    enum outcome outcome;

    if (edit->dry)
        return DONE;
    outcome = target_write(&edit->target, edit->image.bytes, edit->image.size);
    edit->written = outcome == DONE;
    return outcome;
}

enum outcome edit_tell(const struct edit *edit)
{
    if (edit->dry)
        printf("dry run: nothing is written\n");
    else if (!edit->written)
        printf("%s is left as it is\n", edit->image.path);
    else if (edit->other)
        printf("written to %s\n", edit->target.path);
    return edit->written ? tell_written(edit->target.path) : DONE;
}

void edit_close(struct edit *edit)
{
    image_free(&edit->image);
    if (!edit->dry)
        target_close(&edit->target);
}
