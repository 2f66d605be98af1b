/* Frames over a socket, for drm_client.h: their fields, and waits with a time limit. */
#ifndef ZIRKOSHE_DRM_FRAMES_H
#define ZIRKOSHE_DRM_FRAMES_H

#ifndef _POSIX_C_SOURCE
#define _POSIX_C_SOURCE 200809L
#endif

#include <errno.h>
#include <poll.h>
#include <stdbool.h>
#include <stddef.h>
#include <stdint.h>
#include <sys/socket.h>
#include <sys/times.h>
#include <time.h>
#include <unistd.h>

#include "drm_server.h"

/* A conversion of a number, or of a pointer to void, in both languages. */
#ifdef __cplusplus
#define ZIRKOSHE_CAST(type, value) static_cast<type>(value)
#else
#define ZIRKOSHE_CAST(type, value) ((type)(value))
#endif

/* A frame that is written. */
struct zirkoshe_frame {
    size_t length; /* of number and fields */
    unsigned char bytes[4 + ZIRKOSHE_MOST_LENGTH];
};

/* Fields that are read from their front. */
struct zirkoshe_fields {
    const unsigned char *next;
    size_t left;
    bool is_wrong; /* a field was missing or out of range */
};

static inline void zirkoshe_put_at(unsigned char *bytes, size_t size, uint64_t value)
{
    size_t at;

    for (at = 0; at < size; at++)
        bytes[at] = ZIRKOSHE_CAST(unsigned char, value >> (8 * at));
}

static inline void zirkoshe_put(struct zirkoshe_frame *frame, size_t size, uint64_t value)
{
    zirkoshe_put_at(frame->bytes + 4 + frame->length, size, value);
    frame->length += size;
}

static inline uint64_t zirkoshe_take(struct zirkoshe_fields *fields, size_t size)
{
    uint64_t value = 0;
    size_t at;

    if (fields->left < size) {
        fields->is_wrong = true;
        fields->left = 0;
        return 0;
    }
    for (at = 0; at < size; at++)
        value |= ZIRKOSHE_CAST(uint64_t, fields->next[at]) << (8 * at);
    fields->next += size;
    fields->left -= size;
    return value;
}

static inline uint32_t zirkoshe_take_u32(struct zirkoshe_fields *fields)
{
    return ZIRKOSHE_CAST(uint32_t, zirkoshe_take(fields, 4));
}

/* The next field: I is a u32, Q a u64, N a u64 that is a u32 in each answer of its call. */
static inline uint64_t zirkoshe_take_field(struct zirkoshe_fields *fields, char code)
{
    uint64_t value = zirkoshe_take(fields, code == 'I' ? 4 : 8);

    if (code == 'N' && value > UINT32_MAX)
        fields->is_wrong = true;
    return value;
}

/* Takes a list of at most `most` ids, and returns its length. */
static inline uint32_t zirkoshe_take_ids(struct zirkoshe_fields *fields, uint32_t *ids,
                                         uint32_t most)
{
    uint32_t count = zirkoshe_take_u32(fields);
    uint32_t at;

    if (count > most || fields->left / 4 < count) {
        fields->is_wrong = true;
        return 0;
    }
    for (at = 0; at < count; at++)
        ids[at] = zirkoshe_take_u32(fields);
    return count;
}

/* Whether all fields were taken, and none was missing. */
static inline bool zirkoshe_is_whole(const struct zirkoshe_fields *fields)
{
    return !fields->is_wrong && fields->left == 0;
}

/* The frame of a call with these fields: I is a u32, Q a u64. */
static inline void zirkoshe_write(struct zirkoshe_frame *frame, uint16_t number, const char *layout,
                                  const uint64_t *values)
{
    frame->length = 0;
    zirkoshe_put(frame, 2, number);
    for (; *layout != '\0'; layout++)
        zirkoshe_put(frame, *layout == 'Q' ? 8 : 4, *values++);
}

/* A time in milliseconds, from a clock that no one sets. */
static inline int64_t zirkoshe_now(void)
{
#ifdef CLOCK_MONOTONIC
    struct timespec now;

    clock_gettime(CLOCK_MONOTONIC, &now);
    return ZIRKOSHE_CAST(int64_t, now.tv_sec) * 1000 + now.tv_nsec / 1000000;
#else
    /* a strict ISO C mode hides that clock */
    struct tms unused;

    return ZIRKOSHE_CAST(int64_t, times(&unused)) * 1000 / sysconf(_SC_CLK_TCK);
#endif
}

/* A program may wait, send and receive by other functions with the arguments of these. If it has no
 * children, it may also name a function in place of getpid that makes no system call. */
#ifndef ZIRKOSHE_POLL
#define ZIRKOSHE_POLL poll
#endif
#ifndef ZIRKOSHE_GETPID
#define ZIRKOSHE_GETPID getpid
#endif
#ifndef ZIRKOSHE_SEND
#define ZIRKOSHE_SEND send
#define ZIRKOSHE_RECEIVE recv
#endif

/* Waits until the socket is ready for these events, until a time. */
static inline int zirkoshe_wait(int fd, short events, int64_t until)
{
    struct pollfd waited = {fd, events, 0};
    int64_t left = until - zirkoshe_now();
    int ready;

    if (left <= 0)
        return -ETIMEDOUT;
    ready = ZIRKOSHE_POLL(&waited, 1, left < 1000 ? ZIRKOSHE_CAST(int, left) : 1000);
    return ready < 0 && errno != EINTR ? -errno : 0;
}

/* Whether to retry the operation when the socket is ready. */
static inline bool zirkoshe_is_not_ready(int error)
{
    return error == EAGAIN || error == EWOULDBLOCK || error == EINTR;
}

static inline int zirkoshe_send_all(int fd, const unsigned char *bytes, size_t size, int64_t until)
{
    while (size > 0) {
        ssize_t sent = ZIRKOSHE_SEND(fd, bytes, size, MSG_NOSIGNAL);
        int failed = 0;

        if (sent < 0)
            failed = zirkoshe_is_not_ready(errno) ? zirkoshe_wait(fd, POLLOUT, until) : -errno;
        if (failed)
            return failed;
        if (sent > 0) {
            bytes += sent;
            size -= ZIRKOSHE_CAST(size_t, sent);
        }
    }
    return 0;
}

/* Receives at least `size` bytes, and at most `room`, whose number it writes to `taken`. If the
 * connection ends before the first, it returns `at_end`. */
static inline int zirkoshe_take_some(int fd, unsigned char *bytes, size_t size, size_t room,
                                     size_t *taken, int64_t until, int at_end)
{
    *taken = 0;
    while (*taken < size) {
        ssize_t more = ZIRKOSHE_RECEIVE(fd, bytes + *taken, room - *taken, 0);
        int failed = 0;

        if (more == 0)
            return *taken == 0 ? at_end : -EPROTO;
        if (more < 0)
            failed = zirkoshe_is_not_ready(errno) ? zirkoshe_wait(fd, POLLIN, until) : -errno;
        if (failed)
            return failed;
        *taken += more > 0 ? ZIRKOSHE_CAST(size_t, more) : 0;
    }
    return 0;
}

/* Receives exactly `size` bytes. */
static inline int zirkoshe_take_all(int fd, unsigned char *bytes, size_t size, int64_t until,
                                    int at_end)
{
    size_t taken;

    return zirkoshe_take_some(fd, bytes, size, size, &taken, until, at_end);
}

#endif
