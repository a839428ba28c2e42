/* hsc check: whether the tables of images are true, that is, what replay would write. */
#include "command.h"
#include "hsc.h"
#include "image.h"
#include "layout.h"
#include "table.h"

#include <inttypes.h>
#include <stdbool.h>
#include <stdio.h>

static void print_differences(const struct image *image, const struct comparison *comparison)
{
    int32_t fields[HSC_FIELD_COUNT];

    printf("not true: ");
    table_print_difference(stdout, image, comparison);
    printf("\n");
    layout_print_differences(comparison->stored, image_snapshot(image, comparison->first));
    if (hsc_read(comparison->stored, HSC_SNAPSHOT_SIZE, fields) != HSC_DONE)
        printf("  the stored snapshot is not well formed\n");
}

/* named: the line begins with the image's path. */
static enum outcome check(const struct image *image, bool named)
{
    struct comparison comparison;
    enum outcome outcome = table_replay(image, &comparison);

    if (outcome != DONE)
        return outcome;
    if (named)
        printf("%s: ", image->path);
    if (comparison.different == 0) {
        printf("true: all %" PRIu32 " snapshots\n", image->snapshots);
        return DONE;
    }
    print_differences(image, &comparison);
    return DIFFERENT;
}

static enum outcome check_file(const char *path, bool named)
{
    struct image image;
    enum outcome outcome = image_load(&image, path);

    if (outcome != DONE)
        return outcome;
    outcome = check(&image, named);
    image_free(&image);
    return outcome;
}

/* A failure goes before a refusal, and a refusal before a table that is not true. */
static enum outcome worse(enum outcome one, enum outcome other)
{
    static const int RANKS[] = {[DONE] = 0, [DIFFERENT] = 1, [REFUSED] = 2, [FAILED] = 3};

    _Static_assert(sizeof RANKS / sizeof RANKS[0] == OUTCOME_COUNT, "a rank for every outcome");
    return RANKS[one] > RANKS[other] ? one : other;
}

enum outcome command_check(const struct request *request)
{
    enum outcome outcome = DONE;

    for (int i = 0; i < request->operand_count; i++)
        outcome = worse(outcome, check_file(request->operands[i], request->operand_count > 1));
    return outcome;
}
