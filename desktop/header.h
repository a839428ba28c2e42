/* Places of the numbers in an image's header, each of four bytes. */
#ifndef HEADER_H
#define HEADER_H

enum {
    EVENTS_AT = 0,
    EVENT_OFFSET_AT = 4,
    SNAPSHOTS_AT = 8,
    SNAPSHOT_OFFSET_AT = 12,
    SPACING_AT = 16,
    SIXTH_AT = 20
};

#endif
