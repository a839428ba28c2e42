/*
 * hsc.h: the trace of a high-speed counter, checked, stepped, drawn, replayed, mended, compared and received.
 *
 * The calls take numbers and lent buffers and keep nothing from one call to the next. All numbers in the buffers are
 * little-endian.
 *
 *   snapshot, 68 bytes   0-25 staged settings: PFN, MOD (2 bytes each, signed), HIP, LOP, OVF, UNF (4, signed),
 *                        OMB, HPO, LPO (2, unsigned); 26-51 active settings likewise; 52-55 ACC (signed);
 *                        56-57 outputs; 58-59 ER; 60-63 flags; 64 input levels; 65 running cause;
 *                        66 and 67 waiting causes, in order of arrival, which differ where there are two
 *   event, 12 bytes      0 kind, 1 sub, 2-3 zero, 4-7 value (signed), 8-11 clock stamp, never read
 *   trace image          header of six unsigned 4-byte numbers: event count E, event offset 24, snapshot count
 *                        S = E/K + 1, snapshot offset 24 + 12E, spacing K, zero; then the events; then the table of
 *                        snapshots, where snapshot j is the state before event jK and snapshot 0 is fresh
 *
 * What is proved of each call takes this from the caller, and nothing more:
 *   - each pointer is valid for its length (or for what the prototype names) until the call returns,
 *   - no pointer is null, not even with length 0,
 *   - no buffer that a call may write overlaps another one lent to it; two that are only read may overlap.
 * What is in the buffers, and how long they are, is free: a call answers for all of it.
 */
#ifndef HSC_H
#define HSC_H

#include <stddef.h>
#include <stdint.h>

/*
 * The version of this header: in words, and as one number, major * 10000 + minor * 100 + patch. A program compares the
 * number with hsc_version() at its start, to see that header and archive belong together.
 */
#define HSC_VERSION "0.9.0"
#define HSC_VERSION_NUMBER 900

#define HSC_HEADER_SIZE 24
#define HSC_EVENT_SIZE 12
#define HSC_SNAPSHOT_SIZE 68
#define HSC_READER_SIZE 116

/* The most events of an image, and the widest spacing of its snapshots. */
#define HSC_MAX_EVENTS 1048576
#define HSC_MAX_SPACING 4096

#define HSC_INPUT_COUNT 4

/* A refusal: its number, and what its place counts. */
enum hsc_refusal {
    HSC_DONE = 0,                /* no refusal */
    HSC_REFUSED_SHORT = 1,       /* image under 24 bytes; place 0 */
    HSC_REFUSED_LIMITS = 2,      /* E > 1048576, K = 0, K > 4096, or sixth number not 0; place 0 */
    HSC_REFUSED_OFFSETS = 3,     /* event offset, S or snapshot offset is not what E and K ask for; place 0 */
    HSC_REFUSED_LENGTH = 4,      /* image length is not snapshot offset + 68S; place 0 */
    HSC_REFUSED_EVENT = 5,       /* illegal event; place: the first such */
    HSC_REFUSED_SNAPSHOT = 6,    /* a snapshot that must be read is not well formed; place: its index */
    HSC_REFUSED_PATCH = 7,       /* patch length not a multiple of 12, or first + n > E; place 0 */
    HSC_REFUSED_PATCH_EVENT = 8, /* illegal event in the patch; place: the first such, in the patch */
    HSC_REFUSED_SIZE = 9,        /* snapshot not 68 bytes, event not 12, events not a multiple of 12, a trace of more
                                    than 1048576 events, a row that has not one number for each event, or a reader that
                                    is not well formed; place 0 */
    HSC_REFUSED_ROW = 12,        /* the row has no room for all differences; place 0 */
    HSC_REFUSAL_COUNT = 13       /* no call gives 10 or 11 */
};

/* An event's kind, its byte 0. */
enum hsc_kind {
    HSC_BLANK = 0,
    HSC_INPUT_SAMPLE = 1, /* value 0-15, bit n is input n */
    HSC_STAGED_WRITE = 2, /* sub: enum hsc_staged_sub */
    HSC_DEVICE_WRITE = 3, /* programming device; sub: enum hsc_device_sub */
    HSC_FLAG_WRITE = 4,   /* sub: the flag's bit, enum hsc_flag */
    HSC_ACC_WRITE = 5,
    HSC_PRESET_LOAD = 6,
    HSC_ROUTINE_DONE = 7,
    HSC_ENTER_RUN = 8,
    HSC_OUTPUT_WRITE = 9, /* the program's output word, 0-65535 */
    HSC_KIND_COUNT = 10
};

/* What a staged write writes, its byte 1. */
enum hsc_staged_sub {
    HSC_STAGED_HIP = 1,
    HSC_STAGED_LOP = 2,
    HSC_STAGED_OVF = 3,
    HSC_STAGED_UNF = 4,
    HSC_STAGED_HPO = 5, /* 0-65535 */
    HSC_STAGED_LPO = 6  /* 0-65535 */
};

/* What the programming device writes, its byte 1. */
enum hsc_device_sub {
    HSC_DEVICE_PFN = 1, /* -32768 to 32767 */
    HSC_DEVICE_MOD = 2, /* -32768 to 32767 */
    HSC_DEVICE_OMB = 3, /* 0-65535; loads only with bits 0 to 11 */
    HSC_DEVICE_AS = 4   /* 0 or 1 */
};

/* A cause of interrupts, running or waiting. */
enum hsc_cause {
    HSC_NO_CAUSE = 0,
    HSC_LOW_PRESET = 1,
    HSC_HIGH_PRESET = 2,
    HSC_UNDERFLOW = 3,
    HSC_OVERFLOW = 4,
    HSC_CAUSE_COUNT = 5
};

/*
 * The counting mode, an active MOD; each odd one is the mode before it with reset (input 2) and hold (input 3). Modes 1,
 * 3 and 5 reset when input 2 rises. Mode 7 resets when input 0 falls with input 1 off and input 2 on, and counts only
 * with input 2 off.
 */
enum hsc_mode {
    HSC_MODE_UP = 0,
    HSC_MODE_UP_HELD = 1,
    HSC_MODE_DIRECTION = 2,
    HSC_MODE_DIRECTION_HELD = 3,
    HSC_MODE_UP_DOWN = 4,
    HSC_MODE_UP_DOWN_HELD = 5,
    HSC_MODE_QUADRATURE = 6,
    HSC_MODE_QUADRATURE_HELD = 7,
    HSC_MODE_COUNT = 8
};

/* ER: the rule of loading that was broken first. */
enum hsc_error {
    HSC_ER_NONE = 0,
    HSC_ER_PFN = 1, /* PFN is 3 to 255 */
    HSC_ER_MOD = 2, /* MOD is 0 to 7 */
    HSC_ER_HIP = 3, /* modes 0, 1: HIP > 0; modes 2 to 7: HIP > LOP */
    HSC_ER_OVF = 4, /* HIP <= OVF */
    HSC_ER_LOP = 5, /* modes 2 to 7: LOP >= UNF */
    HSC_ER_OMB = 6, /* OMB has bits 0 to 11 only */
    HSC_ER_COUNT = 7
};

/* Indices into the fields of hsc_read; a setting is fields[HSC_STAGED + HSC_HIP], fields[HSC_ACTIVE + HSC_HIP]. */
enum hsc_field {
    HSC_PFN = 0,
    HSC_MOD = 1,
    HSC_HIP = 2,
    HSC_LOP = 3,
    HSC_OVF = 4,
    HSC_UNF = 5,
    HSC_OMB = 6,
    HSC_HPO = 7,
    HSC_LPO = 8,
    HSC_SETTING_COUNT = 9,
    HSC_STAGED = 0, /* the nine settings from here */
    HSC_ACTIVE = 9, /* and from here */
    HSC_ACC = 18,
    HSC_OUTPUTS = 19,
    HSC_ER = 20,
    HSC_FLAGS = 21,
    HSC_LEVELS = 22,
    HSC_RUNNING = 23,
    HSC_FIRST_WAITING = 24,
    HSC_SECOND_WAITING = 25,
    HSC_UIX = 26, /* from here on: shown but not stored. A cause runs */
    HSC_UIP = 27, /* a cause waits */
    HSC_CU = 28,
    HSC_CD = 29,
    HSC_HPR = 30,
    HSC_LPR = 31,
    HSC_FIELD_COUNT = 32
};

/* The flags, by their bits in the flag word. */
enum hsc_flag {
    HSC_FLAG_UIE = 0,
    HSC_FLAG_UIL = 1, /* a cause was lost: one ran, and two others waited */
    HSC_FLAG_FE = 2,
    HSC_FLAG_AS = 3,
    HSC_FLAG_ED = 4,
    HSC_FLAG_CE = 5,
    HSC_FLAG_SP = 6,
    HSC_FLAG_LPM = 7,
    HSC_FLAG_HPM = 8,
    HSC_FLAG_UFM = 9,
    HSC_FLAG_OFM = 10,
    HSC_FLAG_LPI = 11,
    HSC_FLAG_HPI = 12,
    HSC_FLAG_UFI = 13,
    HSC_FLAG_OFI = 14,
    HSC_FLAG_DIR = 15,
    HSC_FLAG_UF = 16,
    HSC_FLAG_OF = 17,
    HSC_FLAG_MD = 18,
    HSC_FLAG_LOADED = 19,
    HSC_FLAG_COUNT = 20
};

#ifdef __cplusplus
extern "C" {
#endif

/* The refusal's number in a status: an enum hsc_refusal, HSC_DONE where the call was done. */
static inline uint32_t hsc_number(uint64_t status)
{
    return (uint32_t)(status & UINT16_MAX);
}

/* The trace that the refusal names, 1 the first or 2 the second; 0 where it names none. */
static inline uint32_t hsc_trace(uint64_t status)
{
    return (uint32_t)(status >> 16 & UINT16_MAX);
}

/* The refusal's place in a status, counted from 0. */
static inline uint32_t hsc_place(uint64_t status)
{
    return (uint32_t)(status >> 32);
}

/* The version of the archive, as HSC_VERSION_NUMBER is that of the header. */
uint32_t hsc_version(void);

/*
 * The calls that answer a status answer 0 where they are done. On a refusal every lent buffer is as it was, but for a
 * reader, which remembers each refusal but 9.
 */

/*
 * Whether the event is legal: 1 yes, 0 no, 9 (HSC_REFUSED_SIZE) if it is not 12 bytes. Writes nothing.
 * 9 is not yes: compare the answer with 1, never take it for a truth value.
 */
uint32_t hsc_event_check(const uint8_t *event, size_t event_len);

/*
 * One step: writes the snapshot after the event over the lent one.
 * Refusals, first that applies: 9, 5, 6, each at place 0.
 */
uint64_t hsc_step(uint8_t *snapshot, size_t snapshot_len, const uint8_t *event, size_t event_len);

/*
 * Drawing: takes the events one after another, as so many steps would, writes the accumulator after each into row, and
 * the snapshot after all of them over the lent one. row_len counts numbers, and is the number of events, which has no
 * upper bound; none is legal.
 * Refusals, first that applies: 9 at place 0; 5 for the first illegal event, where a place past 2^32 - 1 stands as
 * 2^32 - 1; 6 at place 0, also with no events.
 */
uint64_t hsc_draw(uint8_t *snapshot, size_t snapshot_len, const uint8_t *events, size_t events_len, int32_t *row,
                  size_t row_len);

/*
 * Reading: writes the snapshot's numbers, and the bits that are shown but not stored, into fields (enum hsc_field).
 * Refusals, first that applies: 9, 6, each at place 0.
 */
uint64_t hsc_read(const uint8_t *snapshot, size_t snapshot_len, int32_t fields[HSC_FIELD_COUNT]);

/*
 * Replay: runs all events from a fresh counter, writes every snapshot of the image, and the state after the last
 * event into last, as a snapshot. The old table is not looked at; header and events stay.
 * Refusals, first that applies: 1 to 5.
 */
uint64_t hsc_replay(uint8_t *image, size_t image_len, uint8_t last[HSC_SNAPSHOT_SIZE]);

/*
 * Mending: copies the n events of the patch over those from place first, and runs on from snapshot s = first/K.
 * At each snapshot j > s it compares before it writes: at or past the run's end (jK >= first + n) it stops at the
 * first j whose stored bytes agree with the state. span becomes s + 1, the stop, S if there was none, and the events
 * run: snapshots span[0] to span[1] - 1 were written. n = 0 is legal.
 * The events run are the smaller of the stop and S - 1, less s, times K. They are never more than E; and less than
 * n + 2K, if the old table is what replay writes and the patch holds the events already there, stamps disregarded.
 * If the old table is what replay writes, the image is then what replay makes of the changed events, byte for byte.
 * Refusals, first that applies: 1 to 5 for the image as it was, 7, 8, then 6 for snapshot s.
 */
uint64_t hsc_mend(uint8_t *image, size_t image_len, uint64_t first, const uint8_t *patch, size_t patch_len,
                  uint32_t span[3]);

/*
 * Comparing two traces, each a row of events without a header: writes the places within the shorter where kind, sub or
 * value differ, stamps disregarded, into row, rising, and how many there are into count. row_len counts numbers, and
 * the row past the differences stays. Events past the shorter's length are checked and not compared.
 * Refusals, first that applies: 9 for either trace, naming none; 5 for the first, then for the second, named by
 * hsc_trace; 12.
 */
uint64_t hsc_compare(const uint8_t *first, size_t first_len, const uint8_t *second, size_t second_len, uint32_t *row,
                     size_t row_len, uint32_t *count);

/*
 * The unread rest of the longer trace, as a part of it: answers 1 or 2 for the trace, and part becomes the place of the
 * rest's first byte, which is the shorter's length, and its length. Equal lengths give the empty end of the first.
 * Nothing is refused: any lengths will do.
 */
uint32_t hsc_rest(const uint8_t *first, size_t first_len, const uint8_t *second, size_t second_len, uint64_t part[2]);

/*
 * The first place where two parts of bytes differ, counted from 0; the shorter's length exactly if there is none
 * within it. Comparing leaves off there: what stands behind takes no time. It is a place and no status, and nothing is
 * refused: any bytes of any lengths will do. Mending compares snapshots by the same function.
 */
uint64_t hsc_first_difference(const uint8_t *first, size_t first_len, const uint8_t *second, size_t second_len);

/*
 * A trace that comes in chunks, cut anywhere. What was received so far stands in a lent reader, whose bytes are the
 * library's own: the caller may keep and copy them, and other bytes are refused by 9.
 *
 * Makes a reader of an image of which nothing came.
 */
void hsc_reader_new(uint8_t reader[HSC_READER_SIZE]);

/*
 * Takes bytes of the chunk until the next snapshot's place is reached (the header's last byte, the last byte of event
 * jK - 1) or the chunk is used up. taken becomes the number of bytes taken, and 1 if the buffer of 68 bytes now holds
 * that snapshot, else 0 and the buffer as it was: as long as it is 1, the rest of the chunk is fed again. An empty
 * chunk is taken. The table that the sender appends is passed over unread; the snapshots are those that replay writes.
 * Refusals, by the first byte at which one can be told: 9 at place 0; 2, 3 with the header's last byte; 5 with the
 * event's last byte, by its place; 4 at place 0 for a byte too many. Each but 9 stays in the reader, and every later
 * call gives it.
 */
uint64_t hsc_reader_feed(uint8_t reader[HSC_READER_SIZE], const uint8_t *chunk, size_t chunk_len, uint8_t *buffer,
                         size_t buffer_len, uint64_t taken[2]);

/*
 * Takes the sender's end, and writes the final state into the buffer of 68 bytes, as a snapshot. Told again it answers
 * the same.
 * Refusals: 9 at place 0; the one that stays in the reader; 1 if the header is not whole; 4 at place 0 if other bytes
 * are missing. Each but 9 stays in the reader.
 */
uint64_t hsc_reader_end(uint8_t reader[HSC_READER_SIZE], uint8_t *buffer, size_t buffer_len);

#ifdef __cplusplus
}
#endif

#endif
