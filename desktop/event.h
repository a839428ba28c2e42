/* The parts of an event in its 12 bytes. */
#ifndef EVENT_H
#define EVENT_H

#include "hsc.h"

#include <stddef.h>
#include <stdint.h>

/* The bytes of the most events that an image has. With one more, the library refuses them as a patch and as a trace. */
#define EVENTS_LONGEST ((size_t)HSC_MAX_EVENTS * HSC_EVENT_SIZE)

uint8_t event_kind(const uint8_t event[HSC_EVENT_SIZE]);

uint8_t event_sub(const uint8_t event[HSC_EVENT_SIZE]);

int32_t event_value(const uint8_t event[HSC_EVENT_SIZE]);

uint32_t event_stamp(const uint8_t event[HSC_EVENT_SIZE]);

/* Writes all 12 bytes. Whether the event is legal is the library's to say. */
void event_write(uint8_t event[HSC_EVENT_SIZE], uint8_t kind, uint8_t sub, int32_t value, uint32_t stamp);

#endif
