/* The fields of a snapshot in its 68 bytes: document 01, "Snapshot, 68 bytes". */
#include "layout.h"

#include "bytes.h"
#include "words.h"

#include <inttypes.h>
#include <stdio.h>
#include <string.h>

enum reading {
    SIGNED,
    UNSIGNED,
    HEXADECIMAL_WORD,
    FLAG_WORD
};

struct field {
    const char *name;
    size_t at;
    size_t width;
    enum reading reading;
};

/* The nine settings, from this place on. */
#define SETTINGS(group, at) \
    {group " PFN", (at), 2, SIGNED}, {group " MOD", (at) + 2, 2, SIGNED}, {group " HIP", (at) + 4, 4, SIGNED}, \
        {group " LOP", (at) + 8, 4, SIGNED}, {group " OVF", (at) + 12, 4, SIGNED}, \
        {group " UNF", (at) + 16, 4, SIGNED}, {group " OMB", (at) + 20, 2, HEXADECIMAL_WORD}, \
        {group " HPO", (at) + 22, 2, HEXADECIMAL_WORD}, {group " LPO", (at) + 24, 2, HEXADECIMAL_WORD}

static const struct field FIELDS[] = {
    SETTINGS("staged", 0),
    SETTINGS("active", 26),
    {"ACC", 52, 4, SIGNED},
    {"outputs", 56, 2, HEXADECIMAL_WORD},
    {"ER", 58, 2, UNSIGNED},
    {"flags", 60, 4, FLAG_WORD},
    {"inputs", 64, 1, UNSIGNED},
    {"running", 65, 1, UNSIGNED},
    {"first waiting", 66, 1, UNSIGNED},
    {"second waiting", 67, 1, UNSIGNED},
};

#define FIELD_COUNT (sizeof FIELDS / sizeof FIELDS[0])

_Static_assert(FIELD_COUNT == HSC_UIX, "every field that is stored");

static void print_number(const struct field *field, const uint8_t *snapshot)
{
    uint32_t number = bytes_number(snapshot + field->at, field->width);

    switch (field->reading) {
    case SIGNED:
        printf("%" PRId32, bytes_signed(snapshot + field->at, field->width));
        break;
    case UNSIGNED:
        printf("%" PRIu32, number);
        break;
    case HEXADECIMAL_WORD:
        printf("%04" PRIx32, number);
        break;
    case FLAG_WORD:
        printf("%08" PRIx32, number);
        break;
    }
}

/* The names of the flags that are not the same; bits that are no flag have none. */
static void print_flags(uint32_t different)
{
    printf(", different:");
    for (int flag = 0; flag < HSC_FLAG_COUNT; flag++)
        if (different >> flag & 1)
            printf(" %s", FLAG_NAMES[flag]);
    if (different >> HSC_FLAG_COUNT != 0)
        printf(" bits that are no flag");
}

static void print_difference(const struct field *field, const uint8_t *stored, const uint8_t *replayed)
{
    printf("  %s: stored ", field->name);
    print_number(field, stored);
    printf(", replayed ");
    print_number(field, replayed);
    if (field->reading == FLAG_WORD)
        print_flags(bytes_number(stored + field->at, field->width) ^ bytes_number(replayed + field->at, field->width));
    printf("\n");
}

void layout_print_differences(const uint8_t stored[HSC_SNAPSHOT_SIZE], const uint8_t replayed[HSC_SNAPSHOT_SIZE])
{
    for (size_t i = 0; i < FIELD_COUNT; i++)
        if (memcmp(stored + FIELDS[i].at, replayed + FIELDS[i].at, FIELDS[i].width) != 0)
            print_difference(&FIELDS[i], stored, replayed);
}
