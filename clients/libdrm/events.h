/* The events of connections, which are made here.
 *
 * Each event has a time at which it is due. Then it is written to the file of the connection, as a
 * packet. */
#ifndef ZIRKOSHE_LIBDRM_EVENTS_H
#define ZIRKOSHE_LIBDRM_EVENTS_H

#include "libc.h"

#include <stdbool.h>
#include <stdint.h>

#include <drm.h>

/* How many bytes of events wait at most, and so how many events: each kind has the same length. */
#define MOST_EVENT_BYTES 4096
#define MOST_EVENTS (MOST_EVENT_BYTES / sizeof(struct drm_event_vblank))

/* Times are in nanoseconds of CLOCK_MONOTONIC. */
#define MILLISECOND 1000000
#define SECOND 1000000000

/* The time now. */
int64_t time_now(void);

struct event {
    int64_t due;
    uint32_t crtc_id;
    union {
        struct drm_event base;
        struct drm_event_vblank vblank;
        struct drm_event_crtc_sequence sequence;
    } told;
};

struct events {
    struct events *next; /* of another connection */
    int file;            /* the socket that they are written to, or -1 */
    unsigned count;
    unsigned reserved;               /* for events that are still to be added */
    struct event queue[MOST_EVENTS]; /* by their times */
};

/* Begins without events and without a file. Drops all events. */
void events_begin(struct events *events);
void events_end(struct events *events);

/* Returns whether this many more events can wait, besides those that were written and not read. */
bool events_have_room(const struct events *events, unsigned count);

/* Adds an event of a kind: that of the vertical blanking of this number and time, at which it is
 * due. */
void events_add(struct events *events, uint32_t crtc_id, uint32_t kind, uint64_t user_data,
                uint64_t sequence, int64_t time);

/* Makes all events of a CRTC that aren't due yet due now, with this vertical blanking as theirs. */
void events_hasten(uint32_t crtc_id, uint64_t sequence, int64_t time);

/* A descriptor that is readable when an event is due, or -1. Writes the events that are due. */
int events_timer(void);
void events_deliver(void);

#endif
