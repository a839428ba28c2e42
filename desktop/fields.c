/* A state in words: settings, accumulator, outputs, flags, causes. */
#include "fields.h"

#include "words.h"

#include <inttypes.h>
#include <stdio.h>

static void print_settings(const int32_t *fields)
{
    printf("%-8s %11s %11s\n", "", "staged", "active");
    for (int setting = 0; setting < HSC_OMB; setting++)
        printf("%-8s %11" PRId32 " %11" PRId32 "\n", SETTING_NAMES[setting], fields[HSC_STAGED + setting],
               fields[HSC_ACTIVE + setting]);
    for (int setting = HSC_OMB; setting < HSC_SETTING_COUNT; setting++)
        printf("%-8s %11.4" PRIx32 " %11.4" PRIx32 "\n", SETTING_NAMES[setting],
               (uint32_t)fields[HSC_STAGED + setting], (uint32_t)fields[HSC_ACTIVE + setting]);
}

/* The active mode; only loaded settings are sure to have one. */
static void print_mode(const int32_t *fields)
{
    int32_t mode = fields[HSC_ACTIVE + HSC_MOD];

    if (((uint32_t)fields[HSC_FLAGS] >> HSC_FLAG_LOADED & 1) == 0)
        printf("%-8s none, nothing is loaded\n", "mode");
    else
        printf("%-8s %" PRId32 ", %s\n", "mode", mode, MODE_NAMES[mode]);
}

/* The names of the bits that are 1. */
static void print_bits(uint32_t bits, const char *const *names, int count)
{
    for (int bit = 0; bit < count; bit++)
        if (bits >> bit & 1)
            printf(" %s", names[bit]);
    puts(bits == 0 ? " none" : "");
}

static void print_levels(uint32_t levels)
{
    printf("%-8s", "inputs");
    print_bits(levels, INPUT_NAMES, HSC_INPUT_COUNT);
}

static void print_shown(const int32_t *fields)
{
    uint32_t bits = 0;

    for (int field = HSC_UIX; field < HSC_FIELD_COUNT; field++)
        bits |= (uint32_t)fields[field] << (field - HSC_UIX);
    printf("%-8s", "shown");
    print_bits(bits, SHOWN_NAMES, HSC_FIELD_COUNT - HSC_UIX);
}

static void print_causes(const int32_t *fields)
{
    printf("%-8s %s\n", "running", CAUSE_NAMES[fields[HSC_RUNNING]]);
    printf("%-8s %s", "waiting", CAUSE_NAMES[fields[HSC_FIRST_WAITING]]);
    if (fields[HSC_SECOND_WAITING] != HSC_NO_CAUSE)
        printf(", %s", CAUSE_NAMES[fields[HSC_SECOND_WAITING]]);
    printf("\n");
}

void fields_print(const int32_t fields[HSC_FIELD_COUNT])
{
    print_settings(fields);
    print_mode(fields);
    printf("%-8s %" PRId32 "\n", "ACC", fields[HSC_ACC]);
    printf("%-8s %04" PRIx32 "\n", "outputs", (uint32_t)fields[HSC_OUTPUTS]);
    printf("%-8s %" PRId32 ", %s\n", "ER", fields[HSC_ER], ERROR_NAMES[fields[HSC_ER]]);
    printf("%-8s %08" PRIx32, "flags", (uint32_t)fields[HSC_FLAGS]);
    print_bits((uint32_t)fields[HSC_FLAGS], FLAG_NAMES, HSC_FLAG_COUNT);
    print_levels((uint32_t)fields[HSC_LEVELS]);
    print_causes(fields);
    print_shown(fields);
}
