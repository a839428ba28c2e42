/* The parts of an event in its 12 bytes. */
#include "event.h"

#include "bytes.h"

#include <string.h>

/* Places of the parts; the two bytes before the value are zero. */
enum {
    KIND_AT = 0,
    SUB_AT = 1,
    VALUE_AT = 4,
    STAMP_AT = 8
};

uint8_t event_kind(const uint8_t event[HSC_EVENT_SIZE])
{
    return event[KIND_AT];
}

uint8_t event_sub(const uint8_t event[HSC_EVENT_SIZE])
{
    return event[SUB_AT];
}

int32_t event_value(const uint8_t event[HSC_EVENT_SIZE])
{
    return bytes_signed(event + VALUE_AT, 4);
}

uint32_t event_stamp(const uint8_t event[HSC_EVENT_SIZE])
{
    return bytes_number(event + STAMP_AT, 4);
}

void event_write(uint8_t event[HSC_EVENT_SIZE], uint8_t kind, uint8_t sub, int32_t value, uint32_t stamp)
{
    memset(event, 0, HSC_EVENT_SIZE);
    event[KIND_AT] = kind;
    event[SUB_AT] = sub;
    bytes_put(event + VALUE_AT, (uint32_t)value);
    bytes_put(event + STAMP_AT, stamp);
}
