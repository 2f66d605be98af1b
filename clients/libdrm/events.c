/* The events of connections, and the timer that expires when the first of them is due. */
#include "events.h"

#include <linux/sockios.h>
#include <string.h>
#include <sys/ioctl.h>
#include <sys/socket.h>
#include <sys/timerfd.h>
#include <time.h>
#include <unistd.h>

_Static_assert(sizeof(struct drm_event_vblank) == sizeof(struct drm_event_crtc_sequence)
                   && offsetof(struct drm_event_vblank, user_data)
                          == offsetof(struct drm_event_crtc_sequence, user_data),
               "each event has the same length, and its data in the same place");

static struct events *all;
static int timer = -1;

int64_t time_now(void)
{
    struct timespec now;

    clock_gettime(CLOCK_MONOTONIC, &now);
    return (int64_t)now.tv_sec * SECOND + now.tv_nsec;
}

int events_timer(void)
{
    if (timer < 0)
        timer = timerfd_create(CLOCK_MONOTONIC, TFD_CLOEXEC | TFD_NONBLOCK);
    return timer;
}

/* Lets the timer expire when the first event is due, or never. */
static void arm(void)
{
    struct itimerspec until;
    const struct events *each;
    int64_t first = INT64_MAX;

    for (each = all; each != NULL; each = each->next) {
        if (each->count > 0 && each->queue[0].due < first)
            first = each->queue[0].due;
    }
    memset(&until, 0, sizeof until);
    if (first != INT64_MAX) {
        until.it_value.tv_sec = (time_t)(first / SECOND);
        until.it_value.tv_nsec = (long)(first % SECOND);
    }
    timerfd_settime(events_timer(), TFD_TIMER_ABSTIME, &until, NULL);
}

void events_begin(struct events *events)
{
    events->next = all;
    events->file = -1;
    events->count = 0;
    all = events;
}

void events_end(struct events *events)
{
    struct events **place = &all;

    while (*place != events)
        place = &(*place)->next;
    *place = events->next;
    arm();
}

/* What an event takes of the buffer of a socket. */
static int size_in_buffer(void)
{
    static int size;
    const struct drm_event_vblank event = {0};
    int ends[2];

    if (size == 0 && socketpair(AF_UNIX, SOCK_SEQPACKET | SOCK_CLOEXEC, 0, ends) == 0) {
        if (send(ends[0], &event, sizeof event, 0) < 0 || ioctl(ends[0], SIOCOUTQ, &size) != 0)
            size = 0;
        close(ends[0]);
        close(ends[1]);
    }
    return size > 0 ? size : INT32_MAX;
}

bool events_have_room(const struct events *events, unsigned count)
{
    int unread = 0;

    if (ioctl(events->file, SIOCOUTQ, &unread) != 0)
        unread = 0;
    return events->count + events->reserved + (unsigned)(unread / size_in_buffer()) + count
           <= MOST_EVENTS;
}

/* Writes number and time of a vertical blanking into an event, which is due at a time. */
static void stamp(struct event *event, uint64_t sequence, int64_t time, int64_t due)
{
    event->due = due;
    if (event->told.base.type == DRM_EVENT_CRTC_SEQUENCE) {
        event->told.sequence.time_ns = time;
        event->told.sequence.sequence = sequence;
    } else {
        event->told.vblank.tv_sec = (uint32_t)(time / SECOND);
        event->told.vblank.tv_usec = (uint32_t)(time % SECOND / 1000);
        event->told.vblank.sequence = (uint32_t)sequence;
        event->told.vblank.crtc_id = event->crtc_id;
    }
}

/* Inserts an event after those that are not due later. */
static void insert(struct events *events, const struct event *event)
{
    unsigned at = events->count;

    while (at > 0 && events->queue[at - 1].due > event->due) {
        events->queue[at] = events->queue[at - 1];
        at--;
    }
    events->queue[at] = *event;
    events->count++;
}

void events_add(struct events *events, uint32_t crtc_id, uint32_t kind, uint64_t user_data,
                uint64_t sequence, int64_t time)
{
    struct event event = {.crtc_id = crtc_id, .told.base = {kind, sizeof event.told}};

    if (events->count == MOST_EVENTS)
        return;
    event.told.vblank.user_data = user_data;
    stamp(&event, sequence, time, time);
    insert(events, &event);
    arm();
}

/* Hastens those of one connection: they follow the events that are due already, in their order. */
static void hasten(struct events *events, uint32_t crtc_id, uint64_t sequence, int64_t time,
                   int64_t now)
{
    unsigned count = events->count, at;

    events->count = 0;
    for (at = 0; at < count; at++) {
        struct event event = events->queue[at];

        if (event.crtc_id == crtc_id && event.due > now)
            stamp(&event, sequence, time, now);
        insert(events, &event);
    }
}

void events_hasten(uint32_t crtc_id, uint64_t sequence, int64_t time)
{
    struct events *each;

    for (each = all; each != NULL; each = each->next)
        hasten(each, crtc_id, sequence, time, time_now());
    arm();
}

static void deliver(struct events *events, int64_t now)
{
    unsigned taken = 0;

    while (taken < events->count && events->queue[taken].due <= now) {
        const struct event *event = &events->queue[taken++];

        send(events->file, &event->told, event->told.base.length, MSG_DONTWAIT | MSG_NOSIGNAL);
    }
    events->count -= taken;
    memmove(events->queue, events->queue + taken, events->count * sizeof events->queue[0]);
}

void events_deliver(void)
{
    struct events *each;

    for (each = all; each != NULL; each = each->next)
        deliver(each, time_now());
    arm();
}
