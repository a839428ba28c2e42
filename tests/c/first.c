/* Calls the library as the depot's program does: a fresh snapshot is stepped and read back, mode 7 is reset, masks are loaded,
 * causes wait, an image is replayed and mended, two traces are compared, events are drawn, two tables are told apart by their bytes,
 * an image is taken in chunks, and refusals are met. One line for each check; the first that fails ends the run with status 1.
 *
 *   make target/staticlib/libhsc.a
 *   cc -std=c11 -Wall -Wextra -Werror -pedantic -I include tests/c/first.c target/staticlib/libhsc.a -o target/first
 *   target/first
 */
#include "hsc.h"

#include <stdio.h>
#include <stdlib.h>
#include <string.h>

static void check(const char *what, int holds) {
    printf("%s: %s\n", holds ? "ok" : "FAILED", what);
    if (!holds) {
        exit(1);
    }
}

static void put(uint8_t *bytes, size_t at, size_t width, uint32_t value) {
    for (size_t i = 0; i < width; i++) {
        bytes[at + i] = (uint8_t)(value >> (8 * i));
    }
}

/* HIP and OVF 2147483647, LOP and UNF -2147483648 staged, LPM HPM UFM OFM 1, all else 0. */
static void fresh(uint8_t snapshot[HSC_SNAPSHOT_SIZE]) {
    memset(snapshot, 0, HSC_SNAPSHOT_SIZE);
    put(snapshot, 4, 4, 0x7fffffff);
    put(snapshot, 8, 4, 0x80000000);
    put(snapshot, 12, 4, 0x7fffffff);
    put(snapshot, 16, 4, 0x80000000);
    put(snapshot, 60, 4, 0x780);
}

/* The stamp is never read: any will do. */
static void event_of(uint8_t event[HSC_EVENT_SIZE], uint8_t kind, uint8_t sub, int32_t value) {
    memset(event, 0, HSC_EVENT_SIZE);
    event[0] = kind;
    event[1] = sub;
    put(event, 4, 4, (uint32_t)value);
    put(event, 8, 4, 0xa5a5a5a5);
}

static void step(uint8_t snapshot[HSC_SNAPSHOT_SIZE], uint8_t kind, uint8_t sub, int32_t value) {
    uint8_t event[HSC_EVENT_SIZE];
    event_of(event, kind, sub, value);
    if (hsc_step(snapshot, HSC_SNAPSHOT_SIZE, event, HSC_EVENT_SIZE) != 0) {
        check("a legal event is taken", 0);
    }
}

static void check_read(const char *what, const uint8_t *snapshot, const int32_t expected[HSC_FIELD_COUNT]) {
    int32_t fields[HSC_FIELD_COUNT];
    memset(fields, 0x5a, sizeof fields);
    uint64_t status = hsc_read(snapshot, HSC_SNAPSHOT_SIZE, fields);
    check(what, status == 0 && memcmp(fields, expected, sizeof fields) == 0);
}

/* The status, and a snapshot that is as it was. */
static void check_refused(const char *what, uint64_t number, const uint8_t *snapshot, size_t snapshot_len, const uint8_t *event,
                          size_t event_len) {
    uint8_t lent[HSC_SNAPSHOT_SIZE + 1];
    memcpy(lent, snapshot, sizeof lent);
    uint64_t status = hsc_step(lent, snapshot_len, event, event_len);
    check(what, status == number && memcmp(lent, snapshot, sizeof lent) == 0);
}

static void check_unread(const char *what, uint64_t number, const uint8_t *snapshot, size_t snapshot_len) {
    int32_t fields[HSC_FIELD_COUNT], before[HSC_FIELD_COUNT];
    memset(before, 0x5a, sizeof before);
    memcpy(fields, before, sizeof fields);
    uint64_t status = hsc_read(snapshot, snapshot_len, fields);
    check(what, status == number && memcmp(fields, before, sizeof fields) == 0);
}

static void events(void) {
    uint8_t event[HSC_EVENT_SIZE + 1] = {0};
    event_of(event, 5, 0, 7);
    check("ACC := 7 is legal", hsc_event_check(event, 12) == 1);
    check("an event of 11 bytes is refused", hsc_event_check(event, 11) == 9);
    check("an event of 13 bytes is refused", hsc_event_check(event, 13) == 9);
    check("an event of 0 bytes is refused", hsc_event_check(event, 0) == 9);
    event_of(event, 10, 0, 0);
    check("kind 10 is not legal", hsc_event_check(event, 12) == 0);
    event_of(event, 1, 0, 16);
    check("a sample of 16 is not legal", hsc_event_check(event, 12) == 0);
    event_of(event, 0, 0, 0);
    event[2] = 1;
    check("a blank with byte 2 set is not legal", hsc_event_check(event, 12) == 0);
}

static void steps(void) {
    const int32_t low = INT32_MIN, high = INT32_MAX;
    uint8_t snapshot[HSC_SNAPSHOT_SIZE], expected[HSC_SNAPSHOT_SIZE];
    fresh(snapshot);
    check_read("fresh is read back", snapshot,
               (int32_t[HSC_FIELD_COUNT]){[2] = high, [3] = low, [4] = high, [5] = low, [21] = 0x780});

    fresh(expected);
    put(expected, 52, 4, 7);
    step(snapshot, 5, 0, 7);
    check("ACC := 7 changes ACC alone", memcmp(snapshot, expected, sizeof snapshot) == 0);
    put(expected, 56, 2, 3);
    step(snapshot, 9, 0, 3);
    check("outputs := 3 changes outputs alone", memcmp(snapshot, expected, sizeof snapshot) == 0);
    step(snapshot, 5, 0, -5);
    step(snapshot, 2, 5, 65535);
    step(snapshot, 3, 1, -2);
    check_read("negative numbers and a whole word are read back", snapshot,
               (int32_t[HSC_FIELD_COUNT]){
                   [0] = -2, [2] = high, [3] = low, [4] = high, [5] = low, [7] = 65535, [18] = -5, [19] = 3, [21] = 0x780});

    fresh(snapshot);
    step(snapshot, 3, 1, 3);
    step(snapshot, 3, 2, 2);
    step(snapshot, 2, 1, 5);
    step(snapshot, 4, 6, 1);
    check_read("SP loads mode 2", snapshot,
               (int32_t[HSC_FIELD_COUNT]){3, 2, 5, low, high, low, 0, 0, 0, 3, 2, 5, low, high, low, [21] = 0x807c0});
    step(snapshot, 4, 5, 1);
    step(snapshot, 4, 2, 1);
    step(snapshot, 4, 0, 1);
    step(snapshot, 5, 0, 4);
    step(snapshot, 1, 0, 1);
    check_read("a count onto HIP starts cause 2, and UIX, CU, CD and HPR are shown", snapshot,
               (int32_t[HSC_FIELD_COUNT]){3, 2, 5, low, high, low, 0, 0, 0, 3, 2, 5, low, high, low, [18] = 5, [21] = 0x897e5,
                                          [22] = 1, [23] = 2, [26] = 1, [28] = 1, [29] = 1, [30] = 1});
    step(snapshot, 5, 0, 4);
    step(snapshot, 1, 0, 0);
    step(snapshot, 1, 0, 1);
    step(snapshot, 5, 0, low);
    check_read("a second one waits, and UIP and LPR are shown", snapshot,
               (int32_t[HSC_FIELD_COUNT]){3, 2, 5, low, high, low, 0, 0, 0, 3, 2, 5, low, high, low, [18] = low, [21] = 0x897e5,
                                          [22] = 1, [23] = 2, [24] = 2, [26] = 1, [27] = 1, [28] = 1, [29] = 1, [31] = 1});
}

/* The accumulator after an input sample. */
static void check_sample(const char *what, uint8_t snapshot[HSC_SNAPSHOT_SIZE], int32_t levels, int32_t acc) {
    int32_t fields[HSC_FIELD_COUNT];
    step(snapshot, HSC_INPUT_SAMPLE, 0, levels);
    check(what, hsc_read(snapshot, HSC_SNAPSHOT_SIZE, fields) == 0 && fields[HSC_LEVELS] == levels && fields[HSC_ACC] == acc);
}

static void resets(void) {
    const int32_t a = 1, b = 2, z = 4, hold = 8;
    uint8_t snapshot[HSC_SNAPSHOT_SIZE];
    fresh(snapshot);
    step(snapshot, HSC_DEVICE_WRITE, HSC_DEVICE_PFN, 3);
    step(snapshot, HSC_DEVICE_WRITE, HSC_DEVICE_MOD, HSC_MODE_QUADRATURE_HELD);
    step(snapshot, HSC_FLAG_WRITE, HSC_FLAG_SP, 1);
    step(snapshot, HSC_FLAG_WRITE, HSC_FLAG_CE, 1);
    step(snapshot, HSC_ACC_WRITE, 0, 6);
    check_sample("mode 7: A rises with B and Z off, a count up", snapshot, a, 7);
    check_sample("a rising Z does nothing by itself", snapshot, a + z, 7);
    check_sample("A falls with B off and Z on, a reset", snapshot, z, 0);
    check_sample("A rises with Z on, no count", snapshot, a + z, 0);
    check_sample("A and Z fall with B off, a count down", snapshot, 0, -1);
    check_sample("A rises with B and Z on, no count", snapshot, a + b + z, -1);
    check_sample("A falls with B on, neither", snapshot, b + z, -1);
    step(snapshot, HSC_FLAG_WRITE, HSC_FLAG_CE, 0);
    check_sample("CE 0 and hold: A rises, no count", snapshot, a + z + hold, -1);
    check_sample("CE 0 and hold: A falls with B off and Z on, a reset all the same", snapshot, z + hold, 0);
}

/* The numbers of a snapshot that is well formed. */
static void read_fields(const uint8_t snapshot[HSC_SNAPSHOT_SIZE], int32_t fields[HSC_FIELD_COUNT]) {
    if (hsc_read(snapshot, HSC_SNAPSHOT_SIZE, fields) != 0) {
        check("a snapshot that a step left is read", 0);
    }
}

/* ER, and the active OMB, after a load with this OMB staged. */
static void check_loaded(const char *what, uint8_t snapshot[HSC_SNAPSHOT_SIZE], int32_t omb, int32_t er, int32_t active) {
    int32_t fields[HSC_FIELD_COUNT];
    step(snapshot, HSC_DEVICE_WRITE, HSC_DEVICE_OMB, omb);
    step(snapshot, HSC_FLAG_WRITE, HSC_FLAG_SP, 0);
    step(snapshot, HSC_FLAG_WRITE, HSC_FLAG_SP, 1);
    read_fields(snapshot, fields);
    check(what, fields[HSC_ER] == er && fields[HSC_STAGED + HSC_OMB] == omb && fields[HSC_ACTIVE + HSC_OMB] == active);
}

static void masks(void) {
    uint8_t snapshot[HSC_SNAPSHOT_SIZE];
    int32_t fields[HSC_FIELD_COUNT];
    fresh(snapshot);
    step(snapshot, HSC_DEVICE_WRITE, HSC_DEVICE_PFN, 3);
    step(snapshot, HSC_DEVICE_WRITE, HSC_DEVICE_MOD, HSC_MODE_DIRECTION);
    check_loaded("a mask of all twelve outputs is loaded", snapshot, 0x0fff, HSC_ER_NONE, 0x0fff);
    check_loaded("one with bit 12 is rejected with ER 6, and the active one stays", snapshot, 0x1000, HSC_ER_OMB, 0x0fff);
    check_loaded("so is one with bit 15", snapshot, 0x8001, HSC_ER_OMB, 0x0fff);

    step(snapshot, HSC_STAGED_WRITE, HSC_STAGED_HIP, 9);
    step(snapshot, HSC_PRESET_LOAD, 0, 0);
    read_fields(snapshot, fields);
    check("a preset load does not look at the mask", fields[HSC_ER] == HSC_ER_NONE && fields[HSC_ACTIVE + HSC_HIP] == 9);

    step(snapshot, HSC_DEVICE_WRITE, HSC_DEVICE_AS, 1);
    step(snapshot, HSC_ENTER_RUN, 0, 0);
    read_fields(snapshot, fields);
    check("enter run rejects it too, and FE stays", fields[HSC_ER] == HSC_ER_OMB && (fields[HSC_FLAGS] >> HSC_FLAG_FE & 1) == 0);
    step(snapshot, HSC_STAGED_WRITE, HSC_STAGED_UNF, 0);
    check_loaded("LOP below UNF goes before it", snapshot, 0x1000, HSC_ER_LOP, 0x0fff);

    put(snapshot, 46, 2, 0x1fff);
    check_unread("a snapshot with bit 12 in the active mask is refused by 6", HSC_REFUSED_SNAPSHOT, snapshot, sizeof snapshot);
}

/* One count in mode 2: up with input 1 off, down with it on. */
static void count(uint8_t snapshot[HSC_SNAPSHOT_SIZE], int up) {
    step(snapshot, HSC_INPUT_SAMPLE, 0, 0);
    step(snapshot, HSC_INPUT_SAMPLE, 0, up ? 1 : 3);
}

/* The causes, and whether one was lost. */
static void check_causes(const char *what, const uint8_t snapshot[HSC_SNAPSHOT_SIZE], int32_t running, int32_t first, int32_t second,
                         int32_t lost) {
    int32_t fields[HSC_FIELD_COUNT];
    read_fields(snapshot, fields);
    check(what, fields[HSC_RUNNING] == running && fields[HSC_FIRST_WAITING] == first && fields[HSC_SECOND_WAITING] == second &&
                    (fields[HSC_FLAGS] >> HSC_FLAG_UIL & 1) == lost);
}

static void causes(void) {
    uint8_t snapshot[HSC_SNAPSHOT_SIZE];
    fresh(snapshot);
    step(snapshot, HSC_DEVICE_WRITE, HSC_DEVICE_PFN, 3);
    step(snapshot, HSC_DEVICE_WRITE, HSC_DEVICE_MOD, HSC_MODE_DIRECTION);
    step(snapshot, HSC_STAGED_WRITE, HSC_STAGED_HIP, 1);
    step(snapshot, HSC_STAGED_WRITE, HSC_STAGED_LOP, 0);
    step(snapshot, HSC_STAGED_WRITE, HSC_STAGED_OVF, 1);
    step(snapshot, HSC_FLAG_WRITE, HSC_FLAG_SP, 1);
    step(snapshot, HSC_FLAG_WRITE, HSC_FLAG_FE, 1);
    step(snapshot, HSC_FLAG_WRITE, HSC_FLAG_UIE, 1);
    step(snapshot, HSC_FLAG_WRITE, HSC_FLAG_CE, 1);
    count(snapshot, 1);
    check_causes("the high preset starts", snapshot, HSC_HIGH_PRESET, 0, 0, 0);
    count(snapshot, 0);
    count(snapshot, 1);
    check_causes("the low preset waits, then the high one too, which runs", snapshot, HSC_HIGH_PRESET, HSC_LOW_PRESET, HSC_HIGH_PRESET, 0);
    for (int i = 0; i < 1000; i++) {
        count(snapshot, 0);
        count(snapshot, 1);
    }
    check_causes("a thousand times more, and none is lost", snapshot, HSC_HIGH_PRESET, HSC_LOW_PRESET, HSC_HIGH_PRESET, 0);
    count(snapshot, 1);
    check_causes("an overflow finds no place and is lost", snapshot, HSC_HIGH_PRESET, HSC_LOW_PRESET, HSC_HIGH_PRESET, 1);
    step(snapshot, HSC_ROUTINE_DONE, 0, 0);
    check_causes("the routine done, the low preset starts", snapshot, HSC_LOW_PRESET, HSC_HIGH_PRESET, 0, 1);

    snapshot[67] = snapshot[66];
    check_unread("a snapshot in which two equal causes wait is refused by 6", HSC_REFUSED_SNAPSHOT, snapshot, sizeof snapshot);
}

static void refusals(void) {
    uint8_t good[HSC_SNAPSHOT_SIZE + 1] = {0}, bad[HSC_SNAPSHOT_SIZE + 1] = {0};
    uint8_t legal[HSC_EVENT_SIZE + 1] = {0}, illegal[HSC_EVENT_SIZE + 1] = {0};
    fresh(good);
    fresh(bad);
    bad[64] = 16;
    event_of(legal, 5, 0, 7);
    event_of(illegal, 5, 1, 7);

    check_refused("step: a snapshot of 67 bytes is refused by 9", 9, good, 67, legal, 12);
    check_refused("step: a snapshot of 69 bytes is refused by 9", 9, good, 69, legal, 12);
    check_refused("step: a snapshot of 0 bytes is refused by 9", 9, good, 0, legal, 12);
    check_refused("step: an event of 11 bytes is refused by 9", 9, good, 68, legal, 11);
    check_refused("step: an event of 13 bytes is refused by 9", 9, good, 68, legal, 13);
    check_refused("step: an illegal event is refused by 5", 5, good, 68, illegal, 12);
    check_refused("step: levels of 16 are refused by 6", 6, bad, 68, legal, 12);
    check_refused("step: 5 goes before 6", 5, bad, 68, illegal, 12);
    check_refused("step: 9 goes before 5 and 6", 9, bad, 67, illegal, 12);
    check_unread("reading: a snapshot of 67 bytes is refused by 9", 9, good, 67);
    check_unread("reading: a snapshot of 69 bytes is refused by 9", 9, good, 69);
    check_unread("reading: levels of 16 are refused by 6", 6, bad, 68);
    check_unread("reading: 9 goes before 6", 9, bad, 69);
}

enum {
    EVENTS = 2,
    SNAPSHOTS = 3,
    TABLE = HSC_HEADER_SIZE + EVENTS * HSC_EVENT_SIZE,
    IMAGE = TABLE + SNAPSHOTS * HSC_SNAPSHOT_SIZE
};

/* ACC := acc, then outputs := 3; K = 1; a table that no replay wrote. */
static void image_of(uint8_t image[IMAGE], int32_t acc) {
    const uint32_t header[] = {EVENTS, HSC_HEADER_SIZE, SNAPSHOTS, TABLE, 1, 0};
    for (size_t i = 0; i < 6; i++) {
        put(image, 4 * i, 4, header[i]);
    }
    event_of(image + HSC_HEADER_SIZE, 5, 0, acc);
    event_of(image + HSC_HEADER_SIZE + HSC_EVENT_SIZE, 9, 0, 3);
    memset(image + TABLE, 0x5a, IMAGE - TABLE);
}

/* The image with a true table, written by steps. */
static void stepped(uint8_t image[IMAGE], int32_t acc) {
    uint8_t snapshot[HSC_SNAPSHOT_SIZE];
    image_of(image, acc);
    fresh(snapshot);
    for (size_t j = 0; j < SNAPSHOTS; j++) {
        memcpy(image + TABLE + j * HSC_SNAPSHOT_SIZE, snapshot, sizeof snapshot);
        if (j < EVENTS) {
            hsc_step(snapshot, sizeof snapshot, image + HSC_HEADER_SIZE + j * HSC_EVENT_SIZE, HSC_EVENT_SIZE);
        }
    }
}

static void images(void) {
    uint8_t image[IMAGE], expected[IMAGE], last[HSC_SNAPSHOT_SIZE], patch[HSC_EVENT_SIZE];
    uint32_t span[3] = {77, 77, 77};
    image_of(image, 7);
    stepped(expected, 7);
    check("replay is done", hsc_replay(image, IMAGE, last) == 0);
    check("replay writes the table that steps give", memcmp(image, expected, IMAGE) == 0);
    check("the final state is the last snapshot's, with K = 1", memcmp(last, image + IMAGE - sizeof last, sizeof last) == 0);

    event_of(patch, 5, 0, 9);
    stepped(expected, 9);
    check("mending is done", hsc_mend(image, IMAGE, 0, patch, sizeof patch, span) == 0);
    check("mending leaves what replay of the changed image leaves", memcmp(image, expected, IMAGE) == 0);
    check("it compared from snapshot 1 on, and none agreed", span[0] == 1 && span[1] == SNAPSHOTS);
    check("and ran all events, which is the most", span[2] == EVENTS);
    check("the same event again is done", hsc_mend(image, IMAGE, 0, patch, sizeof patch, span) == 0);
    check("and stops at once", span[0] == 1 && span[1] == 1 && memcmp(image, expected, IMAGE) == 0);
    check("after one event", span[2] == 1);
    patch[8] = expected[HSC_HEADER_SIZE + 8] = 1;
    check("so with another stamp, which is copied", hsc_mend(image, IMAGE, 0, patch, sizeof patch, span) == 0 && span[2] == 1 &&
                                                        memcmp(image, expected, IMAGE) == 0);
    check("no event runs one, which is one less than n + 2K", hsc_mend(image, IMAGE, 0, patch, 0, span) == 0 && span[2] == 1);
    check("at the end it runs none", hsc_mend(image, IMAGE, EVENTS, patch, 0, span) == 0 && span[0] == 3 && span[1] == 3 && span[2] == 0);

    uint64_t status = hsc_mend(image, IMAGE, 2, patch, sizeof patch, span);
    check("mending past the last event is refused by 7", hsc_number(status) == HSC_REFUSED_PATCH && hsc_place(status) == 0);
    image[HSC_HEADER_SIZE + HSC_EVENT_SIZE + 2] = expected[HSC_HEADER_SIZE + HSC_EVENT_SIZE + 2] = 1;
    status = hsc_replay(image, IMAGE, last);
    check("an illegal event is refused by 5, at its place", hsc_number(status) == HSC_REFUSED_EVENT && hsc_place(status) == 1);
    check("and the image and the span are as they were",
          memcmp(image, expected, IMAGE) == 0 && span[0] == 3 && span[1] == 3 && span[2] == 0);
}

/* A trace that is lent to be compared, for its rest or to be drawn, or another part of bytes. */
struct trace {
    const uint8_t *bytes;
    size_t len;
};

enum { TRACE = 4 * HSC_EVENT_SIZE, ROW = 4, KEPT = 77 };

/* The differences, with a row of so many numbers; the numbers past them are kept. */
static void check_compared(const char *what, struct trace first, struct trace second, size_t row_len, uint32_t differences,
                           const uint32_t expected[ROW]) {
    uint32_t row[ROW] = {KEPT, KEPT, KEPT, KEPT}, count = KEPT;
    uint64_t status = hsc_compare(first.bytes, first.len, second.bytes, second.len, row, row_len, &count);
    check(what, status == 0 && count == differences && memcmp(row, expected, sizeof row) == 0);
}

/* The refusal with the trace that it names and its place, and a row and a count that are as they were. */
static void check_uncompared(const char *what, uint32_t number, uint32_t trace, uint32_t place, struct trace first,
                             struct trace second, size_t row_len) {
    const uint32_t before[ROW] = {KEPT, KEPT, KEPT, KEPT};
    uint32_t row[ROW] = {KEPT, KEPT, KEPT, KEPT}, count = KEPT;
    uint64_t status = hsc_compare(first.bytes, first.len, second.bytes, second.len, row, row_len, &count);
    check(what, hsc_number(status) == number && hsc_trace(status) == trace && hsc_place(status) == place &&
                    memcmp(row, before, sizeof row) == 0 && count == KEPT);
}

/* ACC := acc, outputs := 3, a staged write of 5 to sub, an event of this kind. */
static void trace_of(uint8_t trace[TRACE], int32_t acc, uint8_t sub, uint8_t kind) {
    event_of(trace, 5, 0, acc);
    event_of(trace + HSC_EVENT_SIZE, 9, 0, 3);
    event_of(trace + 2 * HSC_EVENT_SIZE, 2, sub, 5);
    event_of(trace + 3 * HSC_EVENT_SIZE, kind, 0, 0);
}

static void comparisons(void) {
    uint8_t first[TRACE], second[TRACE], illegal[TRACE];
    trace_of(first, 7, 1, 6);
    trace_of(second, 9, 2, 7);
    put(second, HSC_EVENT_SIZE + 8, 4, 1);
    trace_of(illegal, 9, 7, 7);
    const struct trace one = {first, TRACE}, other = {second, TRACE}, bad = {illegal, TRACE};
    const struct trace half = {first, TRACE / 2}, other_half = {second, TRACE / 2}, odd = {first, 13}, empty = {first, 0};
    const uint32_t none[ROW] = {KEPT, KEPT, KEPT, KEPT}, value[ROW] = {0, KEPT, KEPT, KEPT}, all[ROW] = {0, 2, 3, KEPT};

    check_compared("value, sub and kind differ, a stamp does not; the row is just long enough", one, other, 3, 3, all);
    check_compared("a longer row is kept past them", one, other, ROW, 3, all);
    check_compared("a shorter first ends the comparison", half, other, ROW, 1, value);
    check_compared("so does a shorter second", one, other_half, ROW, 1, value);
    check_compared("a trace differs nowhere from itself", one, one, 0, 0, none);
    check_compared("two empty ones differ nowhere", empty, empty, 0, 0, none);

    check_uncompared("comparing: a row too short by one is refused by 12", 12, 0, 0, one, other, 2);
    check_uncompared("comparing: an illegal event of the first is refused by 5", 5, 1, 2, bad, half, ROW);
    check_uncompared("comparing: so is one of the second, past the first's length", 5, 2, 2, half, bad, ROW);
    check_uncompared("comparing: the first goes before the second, and 5 before 12", 5, 1, 2, bad, bad, 0);
    check_uncompared("comparing: a first of 13 bytes is refused by 9, naming none", 9, 0, 0, odd, one, ROW);
    check_uncompared("comparing: so is a second, and 9 goes before 5", 9, 0, 0, bad, odd, ROW);
}

static void longest(void) {
    uint8_t *blanks = calloc(HSC_MAX_EVENTS + 1, HSC_EVENT_SIZE), event[HSC_EVENT_SIZE];
    check("there is memory for the longest trace", blanks != NULL);
    event_of(event, 5, 0, 7);
    const struct trace short_one = {event, sizeof event}, most = {blanks, (size_t)HSC_MAX_EVENTS * HSC_EVENT_SIZE};
    const struct trace over = {blanks, most.len + HSC_EVENT_SIZE};
    check_compared("1048576 events are compared", most, short_one, ROW, 1, (uint32_t[ROW]){0, KEPT, KEPT, KEPT});
    check_uncompared("comparing: one more in the first is refused by 9", 9, 0, 0, over, short_one, ROW);
    check_uncompared("comparing: one more in the second is refused by 9", 9, 0, 0, short_one, over, ROW);

    uint8_t snapshot[HSC_SNAPSHOT_SIZE];
    int32_t *row = calloc(HSC_MAX_EVENTS + 1, sizeof *row);
    check("there is memory for the longest row", row != NULL);
    fresh(snapshot);
    put(snapshot, 52, 4, 7);
    uint64_t status = hsc_draw(snapshot, sizeof snapshot, over.bytes, over.len, row, HSC_MAX_EVENTS + 1);
    check("one more is drawn", status == 0 && row[0] == 7 && row[HSC_MAX_EVENTS] == 7);
    free(row);
    free(blanks);
}

/* The trace, and the place and length of its part. */
static void check_rest(const char *what, size_t first_len, size_t second_len, uint32_t trace, uint64_t place, uint64_t len) {
    const uint8_t first[TRACE] = {0}, second[TRACE] = {0};
    uint64_t part[2] = {KEPT, KEPT};
    uint32_t longer = hsc_rest(first, first_len, second, second_len, part);
    check(what, longer == trace && part[0] == place && part[1] == len);
}

static void rests(void) {
    const uint8_t bytes[TRACE] = {0};
    uint64_t part[2] = {KEPT, KEPT};
    check_rest("the rest of a longer first", 48, 12, 1, 12, 36);
    check_rest("the rest of a longer second", 12, 48, 2, 12, 36);
    check_rest("the rest beside an empty trace is the whole", 0, 48, 2, 0, 48);
    check_rest("the rest of lengths that are no events'", 13, 12, 1, 12, 1);
    check_rest("equal lengths give the empty end of the first", 48, 48, 1, 48, 0);
    check_rest("so do two empty traces", 0, 0, 1, 0, 0);
    check("so does a trace with itself", hsc_rest(bytes, 24, bytes, 24, part) == 1 && part[0] == 24 && part[1] == 0);
}

/* The accumulator after each event, and the snapshot that single steps leave; the numbers past the row are kept. */
static void check_drawn(const char *what, struct trace events, size_t row_len, const int32_t expected[ROW]) {
    uint8_t drawn[HSC_SNAPSHOT_SIZE], stepped[HSC_SNAPSHOT_SIZE];
    int32_t row[ROW] = {KEPT, KEPT, KEPT, KEPT};
    fresh(drawn);
    fresh(stepped);
    for (size_t at = 0; at < events.len; at += HSC_EVENT_SIZE) {
        hsc_step(stepped, sizeof stepped, events.bytes + at, HSC_EVENT_SIZE);
    }
    uint64_t status = hsc_draw(drawn, sizeof drawn, events.bytes, events.len, row, row_len);
    check(what, status == 0 && memcmp(row, expected, sizeof row) == 0 && memcmp(drawn, stepped, sizeof drawn) == 0);
}

/* The refusal with its place, and a snapshot and a row that are as they were. */
static void check_undrawn(const char *what, uint32_t number, uint32_t place, const uint8_t *snapshot,
                          size_t snapshot_len, struct trace events, size_t row_len) {
    const int32_t before[ROW] = {KEPT, KEPT, KEPT, KEPT};
    int32_t row[ROW] = {KEPT, KEPT, KEPT, KEPT};
    uint8_t lent[HSC_SNAPSHOT_SIZE + 1];
    memcpy(lent, snapshot, sizeof lent);
    uint64_t status = hsc_draw(lent, snapshot_len, events.bytes, events.len, row, row_len);
    check(what, hsc_number(status) == number && hsc_trace(status) == 0 && hsc_place(status) == place &&
                    memcmp(row, before, sizeof row) == 0 && memcmp(lent, snapshot, sizeof lent) == 0);
}

static void drawings(void) {
    uint8_t good[HSC_SNAPSHOT_SIZE + 1] = {0}, bad[HSC_SNAPSHOT_SIZE + 1] = {0}, curve[TRACE], illegal[TRACE];
    fresh(good);
    fresh(bad);
    bad[64] = 16;
    trace_of(curve, -5, 1, 6);
    event_of(curve + 2 * HSC_EVENT_SIZE, 5, 0, INT32_MIN);
    trace_of(illegal, -5, 7, 10);
    const struct trace all = {curve, TRACE}, three = {curve, TRACE - HSC_EVENT_SIZE}, one = {curve, HSC_EVENT_SIZE};
    const struct trace none = {curve, 0}, odd = {curve, 13}, third = {illegal, TRACE};

    check_drawn("four events are drawn", all, 4, (int32_t[ROW]){-5, -5, INT32_MIN, INT32_MIN});
    check_drawn("the row is counted in numbers", three, 3, (int32_t[ROW]){-5, -5, INT32_MIN, KEPT});
    check_drawn("one event is drawn", one, 1, (int32_t[ROW]){-5, KEPT, KEPT, KEPT});
    check_drawn("no events are drawn", none, 0, (int32_t[ROW]){KEPT, KEPT, KEPT, KEPT});

    check_undrawn("drawing: a snapshot of 67 bytes is refused by 9", 9, 0, good, 67, all, 4);
    check_undrawn("drawing: a snapshot of 69 bytes is refused by 9", 9, 0, good, 69, all, 4);
    check_undrawn("drawing: a snapshot of 0 bytes is refused by 9", 9, 0, good, 0, all, 4);
    check_undrawn("drawing: events of 13 bytes are refused by 9", 9, 0, good, 68, odd, 1);
    check_undrawn("drawing: a row too short by one is refused by 9", 9, 0, good, 68, all, 3);
    check_undrawn("drawing: so is one too long by one", 9, 0, good, 68, three, 4);
    check_undrawn("drawing: so is a row for no events", 9, 0, good, 68, none, 1);
    check_undrawn("drawing: an illegal event is refused by 5, at its place", 5, 2, good, 68, third, 4);
    check_undrawn("drawing: levels of 16 are refused by 6", 6, 0, bad, 68, all, 4);
    check_undrawn("drawing: so they are with no events", 6, 0, bad, 68, none, 0);
    check_undrawn("drawing: 5 goes before 6", 5, 2, bad, 68, third, 4);
    check_undrawn("drawing: 9 goes before 5 and 6", 9, 0, bad, 68, third, 3);
}

/* The first place where they differ, in either order. */
static void check_difference(const char *what, struct trace first, struct trace second, uint64_t place) {
    check(what, hsc_first_difference(first.bytes, first.len, second.bytes, second.len) == place &&
                    hsc_first_difference(second.bytes, second.len, first.bytes, first.len) == place);
}

/* The table of an image. */
static struct trace table_of(const uint8_t image[IMAGE]) {
    return (struct trace){image + TABLE, IMAGE - TABLE};
}

static void differences(void) {
    uint8_t truck[IMAGE], office[IMAGE];
    uint32_t span[3] = {KEPT, KEPT, KEPT};
    stepped(truck, 7);
    stepped(office, 7);
    const struct trace one = table_of(truck), other = table_of(office);
    const struct trace snapshot = {other.bytes, HSC_SNAPSHOT_SIZE}, none = {other.bytes, 0};

    check_difference("two tables that differ nowhere give their length", one, other, IMAGE - TABLE);
    check_difference("so does a table with itself", one, one, IMAGE - TABLE);
    check_difference("a snapshot and a table that begins with it give the snapshot's length", snapshot, one, HSC_SNAPSHOT_SIZE);
    check_difference("an empty part differs nowhere", none, one, 0);
    check_difference("so do two", none, none, 0);

    office[IMAGE - 1] = 1;
    check_difference("a difference in the last byte is found", one, other, IMAGE - TABLE - 1);
    stepped(office, 9);
    check_difference("the first snapshot that differs does so in ACC", one, other, HSC_SNAPSHOT_SIZE + 52);
    office[TABLE] ^= 0x80;
    check_difference("a difference in the first byte goes before it", one, other, 0);

    const uint8_t bytes[] = {1, 1, 1, 2, 1};
    const struct trace all = {bytes, sizeof bytes}, behind = {bytes + 1, sizeof bytes - 1};
    check_difference("parts that overlap are compared", all, behind, 2);

    stepped(office, 7);
    for (size_t j = 1; j < SNAPSHOTS; j++) {
        office[TABLE + (j + 1) * HSC_SNAPSHOT_SIZE - 1] = 1;
    }
    check("mending a table of which each last byte differs is done", hsc_mend(office, IMAGE, 0, truck, 0, span) == 0);
    check("and runs to its end", span[0] == 1 && span[1] == SNAPSHOTS && span[2] == EVENTS);
    check_difference("and leaves no difference", one, other, IMAGE - TABLE);
}

/* What is kept of an image that comes in chunks: the snapshots that the reader gives. */
struct receiver {
    uint8_t reader[HSC_READER_SIZE];
    uint8_t table[IMAGE - TABLE];
    size_t snapshots;
};

/* Takes a chunk whole, or up to a refusal: what follows a snapshot's place is fed again. */
static uint64_t receive(struct receiver *receiver, const uint8_t *chunk, size_t len) {
    while (len > 0) {
        uint8_t snapshot[HSC_SNAPSHOT_SIZE];
        uint64_t taken[2];
        uint64_t status = hsc_reader_feed(receiver->reader, chunk, len, snapshot, sizeof snapshot, taken);
        if (status != 0) {
            return status;
        }
        if (taken[1] == 1) {
            memcpy(receiver->table + HSC_SNAPSHOT_SIZE * receiver->snapshots++, snapshot, sizeof snapshot);
        }
        chunk += taken[0];
        len -= (size_t)taken[0];
    }
    return 0;
}

/* Takes bytes in chunks of so many, the last one shorter, up to the first refusal. */
static uint64_t receive_all(struct receiver *receiver, struct trace bytes, size_t chunk_len) {
    uint64_t status = 0;
    memset(receiver, 0x5a, sizeof *receiver);
    receiver->snapshots = 0;
    hsc_reader_new(receiver->reader);
    for (size_t at = 0; status == 0 && at < bytes.len; at += chunk_len) {
        status = receive(receiver, bytes.bytes + at, bytes.len - at < chunk_len ? bytes.len - at : chunk_len);
    }
    return status;
}

/* The end, told twice: the same answer and the same state. */
static uint64_t end_of(struct receiver *receiver, uint8_t last[HSC_SNAPSHOT_SIZE]) {
    uint8_t again[HSC_SNAPSHOT_SIZE];
    memset(last, 0x5a, HSC_SNAPSHOT_SIZE);
    memcpy(again, last, sizeof again);
    uint64_t status = hsc_reader_end(receiver->reader, last, HSC_SNAPSHOT_SIZE);
    check("the end told again answers the same", hsc_reader_end(receiver->reader, again, sizeof again) == status &&
                                                     memcmp(last, again, sizeof again) == 0);
    return status;
}

/* The refusal of a chunk or of the end, and of every call after it; the buffer and what was taken are as they were. */
static void check_unreceived(const char *what, uint32_t number, uint32_t place, struct trace bytes, size_t chunk_len) {
    struct receiver receiver;
    uint8_t last[HSC_SNAPSHOT_SIZE], before[HSC_SNAPSHOT_SIZE];
    uint64_t taken[2] = {KEPT, KEPT};
    uint64_t status = receive_all(&receiver, bytes, chunk_len);
    uint64_t ended = end_of(&receiver, last);
    memset(before, 0x5a, sizeof before);
    check(what, hsc_number(ended) == number && hsc_trace(ended) == 0 && hsc_place(ended) == place &&
                    (status == 0 || status == ended));
    check("a chunk after it is refused likewise, an empty one too",
          hsc_reader_feed(receiver.reader, bytes.bytes, 1, last, sizeof last, taken) == ended &&
              hsc_reader_feed(receiver.reader, bytes.bytes, 0, last, sizeof last, taken) == ended);
    check("and leaves all", memcmp(last, before, sizeof last) == 0 && taken[0] == KEPT && taken[1] == KEPT);
}

static void receptions(void) {
    const size_t lengths[] = {1, 11, 12, 24, 25, 100, IMAGE};
    uint8_t image[IMAGE + 1], expected[IMAGE], last[HSC_SNAPSHOT_SIZE], before[HSC_READER_SIZE];
    struct receiver receiver;
    uint64_t taken[2] = {KEPT, KEPT};
    image_of(image, 7);
    image[IMAGE] = 0;
    stepped(expected, 7);
    const struct trace whole = {image, IMAGE}, longer = {image, IMAGE + 1}, cut = {image, IMAGE - 1};
    const struct trace short_one = {image, HSC_HEADER_SIZE - 1}, event_cut = {image, TABLE - 1}, none = {image, 0};

    for (size_t i = 0; i < sizeof lengths / sizeof *lengths; i++) {
        check("an image in chunks is taken", receive_all(&receiver, whole, lengths[i]) == 0);
        check("its snapshots are those of a replay, and not the sender's",
              receiver.snapshots == SNAPSHOTS && memcmp(receiver.table, expected + TABLE, IMAGE - TABLE) == 0);
        check("its end is good", end_of(&receiver, last) == 0);
        check("and gives the final state", memcmp(last, expected + IMAGE - sizeof last, sizeof last) == 0);
    }
    check("an empty chunk after the end is taken",
          hsc_reader_feed(receiver.reader, image, 0, last, sizeof last, taken) == 0 && taken[0] == 0 && taken[1] == 0);

    hsc_reader_new(receiver.reader);
    memset(last, 0x5a, sizeof last);
    check("a chunk without a snapshot's place leaves the buffer",
          hsc_reader_feed(receiver.reader, image, 10, last, sizeof last, taken) == 0 && taken[0] == 10 && taken[1] == 0 &&
              last[0] == 0x5a);
    memcpy(before, receiver.reader, sizeof before);
    check("a buffer of 67 bytes is refused by 9, of a chunk and of the end",
          hsc_reader_feed(receiver.reader, image, 1, last, 67, taken) == 9 && hsc_reader_end(receiver.reader, last, 67) == 9);
    check("and the reader is as it was", memcmp(receiver.reader, before, sizeof before) == 0 && taken[0] == 10);
    check("the next chunk stops at snapshot 0's place",
          hsc_reader_feed(receiver.reader, image + 10, IMAGE - 10, last, sizeof last, taken) == 0 &&
              taken[0] == HSC_HEADER_SIZE - 10 && taken[1] == 1 && memcmp(last, expected + TABLE, sizeof last) == 0);
    memset(receiver.reader, 0xff, sizeof receiver.reader);
    check("a reader that no call left is refused by 9", hsc_reader_end(receiver.reader, last, sizeof last) == 9);

    check_unreceived("no byte: ended under 24 bytes, 1", 1, 0, none, 1);
    check_unreceived("ended within the header, 1", 1, 0, short_one, 10);
    check_unreceived("ended within an event, 4", 4, 0, event_cut, 10);
    check_unreceived("ended a byte early, 4", 4, 0, cut, 100);
    check_unreceived("a byte too many, 4", 4, 0, longer, IMAGE + 1);
    check_unreceived("a byte too many after the last, 4", 4, 0, longer, IMAGE);
    image[HSC_HEADER_SIZE + HSC_EVENT_SIZE + 2] = 1;
    check_unreceived("an illegal event, 5 at its place", 5, 1, whole, 7);
    check_unreceived("it goes before a length that is wrong", 5, 1, cut, IMAGE);
    check_unreceived("but not if it is cut off", 4, 0, event_cut, IMAGE);
    image[HSC_HEADER_SIZE - 1] = 1;
    check_unreceived("a sixth number that is not 0, 2", 2, 0, whole, 9);
    image[4] = 25;
    check_unreceived("2 goes before 3", 2, 0, whole, 1);
    image[HSC_HEADER_SIZE - 1] = 0;
    check_unreceived("an event offset that is not 24, 3", 3, 0, whole, IMAGE);
}

static void version(void) {
    check("header and archive are of one version", hsc_version() == HSC_VERSION_NUMBER);
}

int main(void) {
    version();
    events();
    steps();
    resets();
    masks();
    causes();
    refusals();
    images();
    comparisons();
    longest();
    rests();
    drawings();
    differences();
    receptions();
    return 0;
}
