/* An image's table of snapshots beside the one that replay writes. */
#include "table.h"

#include <inttypes.h>
#include <stdlib.h>
#include <string.h>

/* The first snapshot, from snapshot j on, that differs from the table's of this size; their number if none does. */
static uint32_t next_difference(const struct image *image, uint32_t j, const uint8_t *table, size_t size)
{
    size_t at = (size_t)j * HSC_SNAPSHOT_SIZE;

    at += hsc_first_difference(image_snapshot(image, 0) + at, size - at, table + at, size - at);
    return (uint32_t)(at / HSC_SNAPSHOT_SIZE);
}

/* Compares the image, which is replayed, with the table of this size that it had. */
static void compare(const struct image *image, const uint8_t *table, size_t size, struct comparison *comparison)
{
    uint32_t j = next_difference(image, 0, table, size);

    comparison->different = 0;
    comparison->first = j;
    if (j < image->snapshots)
        memcpy(comparison->stored, table + (size_t)j * HSC_SNAPSHOT_SIZE, HSC_SNAPSHOT_SIZE);
    for (; j < image->snapshots; j = next_difference(image, j + 1, table, size))
        comparison->different++;
}

enum outcome table_replay(const struct image *image, struct comparison *comparison)
{
    size_t size = (size_t)image->snapshots * HSC_SNAPSHOT_SIZE;
    uint8_t *table = malloc(size);
    uint64_t status;

    if (table == NULL)
        return tell_errno(image->path, "no memory for the table");
    memcpy(table, image_snapshot(image, 0), size);
    status = hsc_replay(image->bytes, image->size, comparison->last);
    if (status == HSC_DONE)
        compare(image, table, size, comparison);
    free(table);
    return status == HSC_DONE ? DONE : tell_refusal(image->path, status);
}

void table_exchange(const struct image *image, uint8_t *table, struct comparison *comparison)
{
    for (uint32_t j = 0; j < image->snapshots; j++) {
        uint8_t *one = image_snapshot(image, j);
        uint8_t *other = table + (size_t)j * HSC_SNAPSHOT_SIZE;
        uint8_t snapshot[HSC_SNAPSHOT_SIZE];

        memcpy(snapshot, one, HSC_SNAPSHOT_SIZE);
        memcpy(one, other, HSC_SNAPSHOT_SIZE);
        memcpy(other, snapshot, HSC_SNAPSHOT_SIZE);
    }
    compare(image, table, (size_t)image->snapshots * HSC_SNAPSHOT_SIZE, comparison);
}

void table_print(const struct image *image, const struct comparison *comparison, const char *when)
{
    if (comparison->different == 0) {
        printf("table true %s\n", when);
        return;
    }
    printf("table not true %s: ", when);
    table_print_difference(stdout, image, comparison);
    printf("\n");
}

void table_print_difference(FILE *stream, const struct image *image, const struct comparison *comparison)
{
    fprintf(stream, "snapshot %" PRIu32 " differs first, %" PRIu32 " of %" PRIu32 " differ", comparison->first,
            comparison->different, image->snapshots);
}
