/* The thirteen calls through the header, as C and C++: each done and refused, with guard bytes behind what is lent. */
#include "hsc.h"

#include <stdio.h>
#include <string.h>

#define GUARD 0xa5
#define IMAGE_SIZE (HSC_HEADER_SIZE + 2 * HSC_EVENT_SIZE + 3 * HSC_SNAPSHOT_SIZE)

static int failures;

static void expect(int holds, const char *what)
{
    if (!holds) {
        fprintf(stderr, "calls: %s\n", what);
        failures++;
    }
}

static uint64_t refusal(uint64_t number, uint64_t place)
{
    return place << 32 | number;
}

static void check_events(void)
{
    const uint8_t good[HSC_EVENT_SIZE] = {HSC_ACC_WRITE, 0, 0, 0, 7, 0, 0, 0, 1, 2, 3, 4};
    const uint8_t bad[HSC_EVENT_SIZE] = {HSC_KIND_COUNT, 0, 0, 0, 0, 0, 0, 0, 0, 0, 0, 0};

    expect(hsc_event_check(good, sizeof good) == 1, "a legal event is legal");
    expect(hsc_event_check(bad, sizeof bad) == 0, "kind 10 is not legal");
    expect(hsc_event_check(good, 11) == HSC_REFUSED_SIZE, "11 bytes are refused");
    expect(hsc_event_check(good, 0) == HSC_REFUSED_SIZE, "no bytes are refused");
}

static void check_single(const uint8_t fresh[HSC_SNAPSHOT_SIZE])
{
    const uint8_t event[HSC_EVENT_SIZE] = {HSC_ACC_WRITE, 0, 0, 0, 0xfe, 0xff, 0xff, 0xff, 0, 0, 0, 0};
    const uint8_t bad[HSC_EVENT_SIZE] = {HSC_ACC_WRITE, 1, 0, 0, 0, 0, 0, 0, 0, 0, 0, 0};
    uint8_t snapshot[HSC_SNAPSHOT_SIZE];
    int32_t fields[HSC_FIELD_COUNT + 1];

    memcpy(snapshot, fresh, sizeof snapshot);
    fields[HSC_ACC] = 5;
    fields[HSC_FIELD_COUNT] = 6;
    expect(hsc_step(snapshot, sizeof snapshot, bad, sizeof bad) == refusal(5, 0), "step refuses an illegal event");
    expect(hsc_step(snapshot, sizeof snapshot, event, 11) == refusal(9, 0), "step refuses 11 bytes");
    expect(memcmp(snapshot, fresh, sizeof snapshot) == 0, "a refused step leaves the snapshot");
    expect(hsc_read(snapshot, 67, fields) == refusal(9, 0), "reading refuses 67 bytes");
    expect(fields[HSC_ACC] == 5, "a refused reading leaves the fields");
    expect(hsc_step(snapshot, sizeof snapshot, event, sizeof event) == HSC_DONE, "step is done");
    expect(hsc_read(snapshot, sizeof snapshot, fields) == HSC_DONE, "reading is done");
    expect(fields[HSC_ACC] == -2, "ACC is written");
    expect(fields[HSC_STAGED + HSC_HIP] == INT32_MAX && fields[HSC_ACTIVE + HSC_HIP] == 0, "HIP is fresh");
    expect(fields[HSC_FLAGS] >> HSC_FLAG_LPM == 15 && fields[HSC_FLAGS] % (1 << HSC_FLAG_LPM) == 0, "flags are fresh");
    expect(fields[HSC_FIELD_COUNT] == 6, "nothing behind the fields is written");
    snapshot[65] = 5;
    expect(hsc_read(snapshot, sizeof snapshot, fields) == refusal(6, 0), "reading refuses cause 5");
}

static void check_draw(const uint8_t fresh[HSC_SNAPSHOT_SIZE])
{
    const uint8_t events[3 * HSC_EVENT_SIZE] = {HSC_ACC_WRITE, 0, 0, 0, 7, 0, 0, 0, 0, 0, 0, 0, HSC_BLANK, 0,
                                                0, 0, 0, 0, 0, 0, 0, 0, 0, 0, HSC_KIND_COUNT};
    uint8_t snapshot[HSC_SNAPSHOT_SIZE];
    uint8_t stepped[HSC_SNAPSHOT_SIZE];
    int32_t row[3] = {40, 41, 42};
    uint64_t status;

    memcpy(snapshot, fresh, sizeof snapshot);
    memcpy(stepped, fresh, sizeof stepped);
    expect(hsc_draw(snapshot, sizeof snapshot, events, 24, row, 1) == refusal(9, 0), "drawing refuses a short row");
    expect(hsc_draw(snapshot, 67, events, 24, row, 2) == refusal(9, 0), "drawing refuses 67 bytes");
    status = hsc_draw(snapshot, sizeof snapshot, events, sizeof events, row, 3);
    expect(status == refusal(5, 2), "drawing refuses an illegal event at its place");
    expect(memcmp(snapshot, fresh, sizeof snapshot) == 0 && row[0] == 40, "a refused drawing leaves all");
    expect(hsc_draw(snapshot, sizeof snapshot, events, 24, row, 2) == HSC_DONE, "drawing is done");
    expect(row[0] == 7 && row[1] == 7 && row[2] == 42, "ACC after each event is written, and no more");
    expect(hsc_step(stepped, sizeof stepped, events, HSC_EVENT_SIZE) == HSC_DONE, "the first event is taken");
    expect(memcmp(snapshot, stepped, sizeof snapshot) == 0, "drawing leaves what the steps leave");
    expect(hsc_draw(snapshot, sizeof snapshot, events, 0, row, 0) == HSC_DONE, "no events are drawn");
    snapshot[65] = 5;
    expect(hsc_draw(snapshot, sizeof snapshot, events, 0, row, 0) == refusal(6, 0), "drawing refuses cause 5");
}

static void check_image(const uint8_t image[IMAGE_SIZE])
{
    const uint8_t patch[2 * HSC_EVENT_SIZE] = {HSC_ACC_WRITE, 0, 0, 0, 9, 0, 0, 0, 0, 0, 0, 0, HSC_KIND_COUNT};
    uint8_t bytes[IMAGE_SIZE + 1];
    uint8_t last[HSC_SNAPSHOT_SIZE + 1];
    uint32_t span[4] = {40, 41, 42, 43};

    memcpy(bytes, image, IMAGE_SIZE);
    bytes[IMAGE_SIZE] = GUARD;
    memset(last, GUARD, sizeof last);
    expect(hsc_replay(bytes, IMAGE_SIZE - 1, last) == refusal(4, 0), "replay refuses a wrong length");
    expect(last[0] == GUARD, "a refused replay leaves the last state");
    expect(hsc_replay(bytes, IMAGE_SIZE, last) == HSC_DONE, "replay is done");
    expect(memcmp(bytes, image, IMAGE_SIZE) == 0, "replay of a true table leaves it");
    expect(memcmp(last, image + IMAGE_SIZE - HSC_SNAPSHOT_SIZE, HSC_SNAPSHOT_SIZE) == 0, "last is snapshot 2");

    expect(hsc_mend(bytes, IMAGE_SIZE, UINT64_MAX, patch, 12, span) == refusal(7, 0), "first + n does not wrap");
    expect(hsc_number(hsc_mend(bytes, IMAGE_SIZE, 0, patch, 24, span)) == HSC_REFUSED_PATCH_EVENT, "8 has its number");
    expect(hsc_place(hsc_mend(bytes, IMAGE_SIZE, 0, patch, 24, span)) == 1, "8 has its place");
    expect(memcmp(bytes, image, IMAGE_SIZE) == 0 && span[0] == 40 && span[1] == 41 && span[2] == 42,
           "a refused mend leaves all");
    expect(hsc_mend(bytes, IMAGE_SIZE, 2, patch, 0, span) == HSC_DONE, "no events at the end are mended");
    expect(span[0] == 3 && span[1] == 3 && span[2] == 0, "no snapshot is after the last, and no event is run");
    expect(hsc_mend(bytes, IMAGE_SIZE, 0, patch, 12, span) == HSC_DONE, "mending is done");
    expect(span[0] == 1 && span[1] == 3 && span[2] == 2, "snapshots 1 and 2 are written, and two events run");
    expect(bytes[IMAGE_SIZE] == GUARD && last[HSC_SNAPSHOT_SIZE] == GUARD && span[3] == 43, "no more is written");
}

static void check_traces(void)
{
    const uint8_t first[2 * HSC_EVENT_SIZE] = {HSC_ACC_WRITE, 0, 0, 0, 7, 0, 0, 0, 1};
    const uint8_t second[3 * HSC_EVENT_SIZE] = {HSC_ACC_WRITE, 0, 0, 0, 7, 0, 0, 0, 2, 0, 0, 0, HSC_ROUTINE_DONE};
    uint8_t bad[3 * HSC_EVENT_SIZE] = {0};
    uint32_t row[2] = {40, 41};
    uint32_t count = 42;
    uint64_t part[3] = {43, 44, 45};
    uint64_t status;

    bad[2 * HSC_EVENT_SIZE] = HSC_KIND_COUNT;
    expect(hsc_compare(first, 23, bad, sizeof bad, row, 1, &count) == refusal(9, 0), "comparing refuses 23 bytes");
    status = hsc_compare(first, sizeof first, bad, sizeof bad, row, 0, &count);
    expect(hsc_number(status) == HSC_REFUSED_EVENT && hsc_place(status) == 2, "5 has its number and place");
    expect(hsc_trace(status) == 2, "5 names the second trace");
    expect(hsc_trace(hsc_compare(bad, sizeof bad, bad, sizeof bad, row, 0, &count)) == 1, "5 names the first trace");
    status = hsc_compare(first, sizeof first, second, sizeof second, row, 0, &count);
    expect(status == refusal(12, 0), "comparing refuses a row without room");
    expect(row[0] == 40 && count == 42, "a refused comparison leaves all");
    expect(hsc_compare(first, sizeof first, second, sizeof second, row, 1, &count) == HSC_DONE, "comparing is done");
    expect(count == 1 && row[0] == 1 && row[1] == 41, "the place of one difference is written, and no more");
    expect(hsc_rest(first, sizeof first, second, sizeof second, part) == 2, "the second is longer");
    expect(part[0] == 24 && part[1] == 12 && part[2] == 45, "its rest is one event");
    expect(hsc_rest(first, sizeof first, first, sizeof first, part) == 1, "of equal lengths the first is named");
    expect(part[0] == 24 && part[1] == 0, "its rest is the empty end");
}

static void check_difference(void)
{
    const uint8_t first[] = {1, 2, 3, 4};
    const uint8_t second[] = {1, 2, 0, 0, 5};

    expect(hsc_first_difference(first, sizeof first, second, sizeof second) == 2, "the first difference is found");
    expect(hsc_first_difference(first, 2, second, sizeof second) == 2, "without one it is the first's length");
    expect(hsc_first_difference(first, sizeof first, second, 1) == 1, "or the second's");
    expect(hsc_first_difference(first, sizeof first, first, sizeof first) == 4, "a part differs nowhere from itself");
    expect(hsc_first_difference(first, 0, second, 0) == 0, "nor do two empty ones");
}

static void check_reader(const uint8_t image[IMAGE_SIZE])
{
    const uint8_t *table = image + HSC_HEADER_SIZE + 2 * HSC_EVENT_SIZE;
    const uint8_t bad[HSC_EVENT_SIZE] = {HSC_KIND_COUNT};
    uint8_t reader[HSC_READER_SIZE + 1];
    uint8_t before[HSC_READER_SIZE + 1];
    uint8_t buffer[HSC_SNAPSHOT_SIZE + 1];
    uint64_t taken[3] = {40, 41, 42};

    memset(reader, GUARD, sizeof reader);
    memset(buffer, GUARD, sizeof buffer);
    hsc_reader_new(reader);
    memcpy(before, reader, sizeof before);
    expect(hsc_reader_feed(reader, image, 24, buffer, 67, taken) == refusal(9, 0), "feeding refuses 67 bytes");
    expect(hsc_reader_end(reader, buffer, 69) == refusal(9, 0), "the end refuses 69 bytes");
    expect(memcmp(reader, before, sizeof reader) == 0 && taken[0] == 40 && buffer[0] == GUARD, "9 leaves all");
    expect(hsc_reader_feed(reader, image, 23, buffer, 68, taken) == HSC_DONE, "a part of the header is fed");
    expect(taken[0] == 23 && taken[1] == 0 && buffer[0] == GUARD, "it is taken, and the buffer stays");
    expect(hsc_reader_feed(reader, image + 23, IMAGE_SIZE - 23, buffer, 68, taken) == HSC_DONE, "the rest is fed");
    expect(taken[0] == 1 && taken[1] == 1 && memcmp(buffer, table, 68) == 0, "snapshot 0 comes with the header");
    memcpy(before, reader, sizeof before);
    expect(hsc_reader_feed(reader, bad, sizeof bad, buffer, 68, taken) == refusal(5, 0), "5 has its place");
    expect(hsc_reader_end(reader, buffer, 68) == refusal(5, 0), "a refusal is remembered");
    memcpy(reader, before, sizeof reader);
    expect(hsc_reader_feed(reader, image + 24, 12, buffer, 68, taken) == HSC_DONE, "a reader can be copied");
    expect(taken[0] == 12 && taken[1] == 1 && memcmp(buffer, table + 68, 68) == 0, "snapshot 1 comes after event 0");
    expect(hsc_reader_feed(reader, image + 36, 12, buffer, 68, taken) == HSC_DONE, "event 1 is fed");
    expect(hsc_reader_feed(reader, image + 48, 3 * 68, buffer, 68, taken) == HSC_DONE, "the table is fed");
    expect(taken[0] == 3 * 68 && taken[1] == 0, "it is passed over");
    memset(buffer, GUARD, 68);
    expect(hsc_reader_end(reader, buffer, 68) == HSC_DONE, "the end is good");
    expect(memcmp(buffer, table + 2 * 68, 68) == 0, "it gives the final state");
    expect(hsc_reader_feed(reader, image, 1, buffer, 68, taken) == refusal(4, 0), "a byte more is one too many");
    expect(reader[HSC_READER_SIZE] == GUARD && buffer[68] == GUARD && taken[2] == 42, "no more is written");
    memset(reader, GUARD, sizeof reader);
    expect(hsc_reader_end(reader, buffer, 68) == refusal(9, 0), "bytes that are no reader are refused");
}

/* The operand is the path of the image of two events. */
int main(int count, char **words)
{
    uint8_t image[IMAGE_SIZE];
    FILE *file = count == 2 ? fopen(words[1], "rb") : NULL;

    if (file == NULL || fread(image, 1, sizeof image, file) != sizeof image) {
        fprintf(stderr, "calls: the image cannot be read\n");
        return 2;
    }
    fclose(file);
    expect(hsc_version() == HSC_VERSION_NUMBER, "header and archive are of one version");
    check_events();
    check_single(image + HSC_HEADER_SIZE + 2 * HSC_EVENT_SIZE);
    check_draw(image + HSC_HEADER_SIZE + 2 * HSC_EVENT_SIZE);
    check_image(image);
    check_traces();
    check_difference();
    check_reader(image);
    return failures == 0 ? 0 : 1;
}
