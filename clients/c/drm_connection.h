/* The connection of a client, for drm_client.h: turns of threads, questions and answers, opening
 * and closing. */
#ifndef ZIRKOSHE_DRM_CONNECTION_H
#define ZIRKOSHE_DRM_CONNECTION_H

#ifndef _POSIX_C_SOURCE
#define _POSIX_C_SOURCE 200809L
#endif

#include <errno.h>
#include <fcntl.h>
#include <poll.h>
#include <pthread.h>
#include <stdbool.h>
#include <stddef.h>
#include <stdint.h>
#include <string.h>
#include <sys/socket.h>
#include <sys/un.h>
#include <unistd.h>

#include "drm_frames.h"
#include "drm_server.h"

#define ZIRKOSHE_TIMEOUT 30000

/* Whose turn it is. The thread that has it may take it again. */
struct zirkoshe_turn {
    pthread_mutex_t guard;
    pthread_cond_t is_free;
    pthread_t owner;
    unsigned depth; /* how often the owner took it; 0 if it is free */
};

struct zirkoshe_client {
    int socket;      /* -1 if the connection is closed */
    pid_t process;   /* the process that opened the client */
    int timeout;     /* the time limit in milliseconds of an opening, a call and the closing */
    uint32_t number; /* the number that the server gave this client */
    uint32_t rule;   /* the number of the rule by which the last call was refused, or 0 */
    bool is_ready;   /* the turn can be taken */
    struct zirkoshe_turn turn; /* held from a request until its answer arrives */
};

/* The name of a rule or a fault; "none" if there is none with this number. */
static inline const char *zirkoshe_rule_name(uint32_t number)
{
    const struct zirkoshe_rule *rule = zirkoshe_find_rule(number);

    return rule == NULL ? "none" : rule->name;
}

/* The rule or fault by which the last call was refused, or NULL if it wasn't. */
static inline const struct zirkoshe_rule *zirkoshe_refused_by(const struct zirkoshe_client *client)
{
    return zirkoshe_find_rule(client->rule);
}

/* A turn that is free; 0 or a negative errno. */
static inline int zirkoshe_prepare_turn(struct zirkoshe_turn *turn)
{
    int failed = pthread_mutex_init(&turn->guard, NULL);

    if (failed)
        return -failed;
    failed = pthread_cond_init(&turn->is_free, NULL);
    if (failed)
        pthread_mutex_destroy(&turn->guard);
    turn->depth = 0;
    return -failed;
}

/* Frees what the turn needs, which no thread has or waits for. */
static inline void zirkoshe_destroy_turn(struct zirkoshe_turn *turn)
{
    pthread_cond_destroy(&turn->is_free);
    pthread_mutex_destroy(&turn->guard);
}

/* Whether this process opened the client. A child of fork has a copy of its parent's, whose turn a
 * thread of the parent may have had. */
static inline bool zirkoshe_is_own(const struct zirkoshe_client *client)
{
    return client->process == ZIRKOSHE_GETPID();
}

/* Waits until no other thread asks, and lets none ask until zirkoshe_unlock. Calls of the same
 * thread continue. */
static inline void zirkoshe_lock(struct zirkoshe_client *client)
{
    struct zirkoshe_turn *turn = &client->turn;
    int state;

    if (!zirkoshe_is_own(client))
        return;
    pthread_setcancelstate(PTHREAD_CANCEL_DISABLE, &state);
    pthread_mutex_lock(&turn->guard);
    while (turn->depth > 0 && !pthread_equal(turn->owner, pthread_self()))
        pthread_cond_wait(&turn->is_free, &turn->guard);
    turn->owner = pthread_self();
    turn->depth++;
    pthread_mutex_unlock(&turn->guard);
    pthread_setcancelstate(state, NULL);
}

static inline void zirkoshe_unlock(struct zirkoshe_client *client)
{
    struct zirkoshe_turn *turn = &client->turn;

    if (!zirkoshe_is_own(client))
        return;
    pthread_mutex_lock(&turn->guard);
    turn->depth--;
    if (turn->depth == 0)
        pthread_cond_signal(&turn->is_free);
    pthread_mutex_unlock(&turn->guard);
}

/* Closes the connection, and returns the error. */
static inline int zirkoshe_abandon(struct zirkoshe_client *client, int error)
{
    if (client->socket >= 0)
        close(client->socket);
    client->socket = -1;
    return error;
}

static inline int zirkoshe_send_frame(struct zirkoshe_client *client, struct zirkoshe_frame *frame,
                                      int64_t until)
{
    zirkoshe_put_at(frame->bytes, 4, frame->length);
    return zirkoshe_send_all(client->socket, frame->bytes, 4 + frame->length, until);
}

/* Takes the frame of an answer, which nothing follows. */
static inline int zirkoshe_take_frame(struct zirkoshe_client *client, struct zirkoshe_frame *frame,
                                      int64_t until)
{
    struct zirkoshe_fields length = {frame->bytes, 4, false};
    size_t taken = 0;
    int failed = zirkoshe_take_some(client->socket, frame->bytes, 4, sizeof frame->bytes, &taken,
                                    until, -ECONNRESET);

    if (failed)
        return failed;
    frame->length = zirkoshe_take_u32(&length);
    if (frame->length < ZIRKOSHE_LEAST_LENGTH || frame->length > ZIRKOSHE_MOST_LENGTH
        || taken > 4 + frame->length)
        return -EPROTO;
    return zirkoshe_take_all(client->socket, frame->bytes + taken, 4 + frame->length - taken, until,
                             -EPROTO);
}

/* Sends a frame, and takes the frame that answers it in its place. */
static inline int zirkoshe_exchange(struct zirkoshe_client *client, struct zirkoshe_frame *frame)
{
    int64_t until = zirkoshe_now() + client->timeout;
    int failed = zirkoshe_send_frame(client, frame, until);

    return failed ? failed : zirkoshe_take_frame(client, frame, until);
}

/* The error of a refusal's frame. The client keeps the rule. */
static inline int zirkoshe_refusal(struct zirkoshe_client *client, bool is_apart,
                                   struct zirkoshe_fields *fields)
{
    uint32_t number = zirkoshe_take_u32(fields);
    uint32_t error = zirkoshe_take_u32(fields);
    const struct zirkoshe_rule *rule = zirkoshe_find_rule(number);

    if (!zirkoshe_is_whole(fields) || rule == NULL || ZIRKOSHE_CAST(uint32_t, rule->error) != error
        || is_apart != (number >= ZIRKOSHE_APART_JOURNAL_FULL))
        return zirkoshe_abandon(client, -EPROTO);
    client->rule = number;
    return -rule->error;
}

/* Reads a frame whose receiving returned `failed`: the fields of the answer, which has this number,
 * or the error. */
static inline int zirkoshe_read_frame(struct zirkoshe_client *client,
                                      const struct zirkoshe_frame *frame, int failed,
                                      uint16_t wanted, struct zirkoshe_fields *fields)
{
    uint32_t number;

    if (failed)
        return zirkoshe_abandon(client, failed);
    fields->next = frame->bytes + 4;
    fields->left = frame->length;
    fields->is_wrong = false;
    number = ZIRKOSHE_CAST(uint32_t, zirkoshe_take(fields, 2));
    if (number == ZIRKOSHE_ANSWER_DENIED || number == ZIRKOSHE_ANSWER_APART)
        return zirkoshe_refusal(client, number == ZIRKOSHE_ANSWER_APART, fields);
    return number == wanted ? 0 : zirkoshe_abandon(client, -EPROTO);
}

/* The error of a client that can't ask, because it is closed or is its parent's; otherwise 0. */
static inline int zirkoshe_check(const struct zirkoshe_client *client)
{
    if (!client->is_ready)
        return -ENOTCONN;
    return zirkoshe_is_own(client) ? 0 : -ECHILD;
}

/* Asks, and returns the fields of the answer, which has this number. The client is held. */
static inline int zirkoshe_ask_held(struct zirkoshe_client *client, struct zirkoshe_frame *frame,
                                    uint16_t wanted, struct zirkoshe_fields *fields)
{
    client->rule = 0;
    if (client->socket < 0)
        return -ENOTCONN;
    return zirkoshe_read_frame(client, frame, zirkoshe_exchange(client, frame), wanted, fields);
}

/* The same when it is this thread's turn. If it returns 0, the turn lasts until zirkoshe_end. */
static inline int zirkoshe_ask(struct zirkoshe_client *client, struct zirkoshe_frame *frame,
                               uint16_t wanted, struct zirkoshe_fields *fields)
{
    int failed = zirkoshe_check(client);

    if (failed) {
        client->rule = 0;
        return failed;
    }
    zirkoshe_lock(client);
    failed = zirkoshe_ask_held(client, frame, wanted, fields);
    if (failed)
        zirkoshe_unlock(client);
    return failed;
}

/* Ends the turn, and returns 0 if the fields of an answer were those that were taken. */
static inline int zirkoshe_end(struct zirkoshe_client *client, const struct zirkoshe_fields *fields)
{
    int failed = zirkoshe_is_whole(fields) ? 0 : zirkoshe_abandon(client, -EPROTO);

    zirkoshe_unlock(client);
    return failed;
}

/* A call whose answer has the number `wanted` and these fields, five at most. */
static inline int zirkoshe_call(struct zirkoshe_client *client, uint16_t number, const char *layout,
                                const uint64_t *values, uint16_t wanted, const char *wanted_layout,
                                uint64_t *taken)
{
    struct zirkoshe_frame frame;
    struct zirkoshe_fields fields;
    uint64_t found[5];
    size_t count;
    int failed;

    zirkoshe_write(&frame, number, layout, values);
    failed = zirkoshe_ask(client, &frame, wanted, &fields);
    if (failed)
        return failed;
    for (count = 0; wanted_layout[count] != '\0'; count++)
        found[count] = zirkoshe_take_field(&fields, wanted_layout[count]);
    failed = zirkoshe_end(client, &fields);
    if (!failed && count > 0)
        memcpy(taken, found, count * sizeof found[0]);
    return failed;
}

/* A call of three numbers whose answer has no fields, what it returned, and the rule by which it
 * was refused or 0 */
struct zirkoshe_plain_call {
    uint16_t number;
    uint64_t values[3];
    int failed;
    uint32_t rule;
};

#define ZIRKOSHE_MOST_PLAIN_CALLS 64
/* The bytes of such a call, of its answer, and of a refusal */
#define ZIRKOSHE_PLAIN_CALL 18
#define ZIRKOSHE_PLAIN_ANSWER 6
#define ZIRKOSHE_REFUSAL 14

static inline int zirkoshe_send_plain_calls(struct zirkoshe_client *client,
                                            const struct zirkoshe_plain_call *calls, size_t count,
                                            int64_t until)
{
    unsigned char bytes[ZIRKOSHE_MOST_PLAIN_CALLS * ZIRKOSHE_PLAIN_CALL];
    struct zirkoshe_frame frame;
    size_t at;

    for (at = 0; at < count; at++) {
        zirkoshe_write(&frame, calls[at].number, "III", calls[at].values);
        zirkoshe_put_at(frame.bytes, 4, frame.length);
        memcpy(bytes + at * ZIRKOSHE_PLAIN_CALL, frame.bytes, ZIRKOSHE_PLAIN_CALL);
    }
    return zirkoshe_send_all(client->socket, bytes, count * ZIRKOSHE_PLAIN_CALL, until);
}

/* Receives until `wanted` bytes are taken, which is no more than surely follows. */
static inline int zirkoshe_take_until(struct zirkoshe_client *client, unsigned char *bytes,
                                      size_t *taken, size_t wanted, int64_t until)
{
    size_t before = *taken;

    if (wanted <= before)
        return 0;
    *taken = wanted;
    return zirkoshe_take_all(client->socket, bytes + before, wanted - before, until, -ECONNRESET);
}

/* Takes the answer of a call that begins at `*next`, which `others` follow. */
static inline int zirkoshe_take_plain_answer(struct zirkoshe_client *client, unsigned char *bytes,
                                             size_t *next, size_t *taken, size_t others,
                                             int64_t until)
{
    struct zirkoshe_fields fields = {bytes + *next, 4, false};
    struct zirkoshe_frame frame;
    size_t size = ZIRKOSHE_PLAIN_ANSWER, left = others * ZIRKOSHE_PLAIN_ANSWER;
    int failed = zirkoshe_take_until(client, bytes, taken, *next + size + left, until);

    frame.length = failed ? 0 : zirkoshe_take_u32(&fields);
    if (frame.length == ZIRKOSHE_REFUSAL - 4) {
        size = ZIRKOSHE_REFUSAL;
        failed = zirkoshe_take_until(client, bytes, taken, *next + size + left, until);
    }
    if (!failed && 4 + frame.length != size)
        failed = -EPROTO;
    memcpy(frame.bytes, bytes + *next, size);
    *next += size;
    client->rule = 0;
    return zirkoshe_read_frame(client, &frame, failed, ZIRKOSHE_ANSWER_DONE, &fields);
}

/* Makes calls, at most ZIRKOSHE_MOST_PLAIN_CALLS, which are all sent before the first answer is
 * taken. The client is held by zirkoshe_lock. If the connection fails, so do all calls from then
 * on.
 */
static inline void zirkoshe_call_together(struct zirkoshe_client *client,
                                          struct zirkoshe_plain_call *calls, size_t count)
{
    unsigned char bytes[ZIRKOSHE_MOST_PLAIN_CALLS * ZIRKOSHE_REFUSAL];
    int64_t until = zirkoshe_now() + client->timeout;
    size_t at, next = 0, taken = 0;
    int failed = zirkoshe_check(client);

    if (!failed)
        failed =
            client->socket < 0 ? -ENOTCONN : zirkoshe_send_plain_calls(client, calls, count, until);
    for (at = 0; at < count; at++) {
        calls[at].failed = failed ? zirkoshe_abandon(client, failed)
                                  : zirkoshe_take_plain_answer(client, bytes, &next, &taken,
                                                               count - at - 1, until);
        calls[at].rule = failed ? 0 : client->rule;
        failed = client->socket < 0 ? calls[at].failed : 0;
    }
}

/* A call that no frame takes isn't sent. */
static inline int zirkoshe_refuse_to_ask(struct zirkoshe_client *client)
{
    if (client->is_ready) {
        zirkoshe_lock(client);
        client->rule = 0;
        zirkoshe_unlock(client);
    }
    return -EINVAL;
}

/* Connects, and waits if the listener's queue is full. */
static inline int zirkoshe_try_connect(int fd, const struct sockaddr_un *address, int64_t until)
{
    const void *plain = address;

    while (connect(fd, ZIRKOSHE_CAST(const struct sockaddr *, plain), sizeof *address) != 0) {
        if (!zirkoshe_is_not_ready(errno))
            return -errno;
        if (zirkoshe_now() >= until)
            return -ETIMEDOUT;
        ZIRKOSHE_POLL(NULL, 0, 10);
    }
    return 0;
}

/* A connection to the socket at this path, or a negative errno. */
static inline int zirkoshe_connect(const char *path, int64_t until)
{
    struct sockaddr_un address;
    size_t length;
    int fd, failed;

    if (path == NULL || path[0] == '\0')
        return -EINVAL;
    length = strlen(path);
    memset(&address, 0, sizeof address);
    address.sun_family = AF_UNIX;
    if (length >= sizeof address.sun_path)
        return -ENAMETOOLONG;
    memcpy(address.sun_path, path, length);
    fd = socket(AF_UNIX, SOCK_STREAM | SOCK_CLOEXEC | SOCK_NONBLOCK, 0);
    if (fd < 0)
        return -errno;
    failed = zirkoshe_try_connect(fd, &address, until);
    if (!failed)
        return fd;
    close(fd);
    return failed;
}

/* Frees what a client needs that isn't open, and returns the error. A turn of the parent's stays as
 * it is, since its destruction could wait for a thread of the parent. */
static inline int zirkoshe_discard(struct zirkoshe_client *client, int error)
{
    zirkoshe_abandon(client, error);
    client->is_ready = false;
    if (zirkoshe_is_own(client))
        zirkoshe_destroy_turn(&client->turn);
    return error;
}

/* Connects, and sends a hello of this version: what is 0 for the node, 1 for a lease token. */
static inline int zirkoshe_open_by(struct zirkoshe_client *client, const char *path,
                                   uint32_t version, uint32_t what, uint32_t token, int timeout)
{
    const uint64_t values[] = {version, what, token};
    uint64_t number = 0;
    int failed;

    client->socket = -1;
    client->process = ZIRKOSHE_GETPID();
    client->number = 0;
    client->rule = 0;
    client->timeout = timeout;
    client->is_ready = false;
    failed = zirkoshe_prepare_turn(&client->turn);
    if (failed)
        return failed;
    client->is_ready = true;
    client->socket = zirkoshe_connect(path, zirkoshe_now() + timeout);
    if (client->socket < 0)
        return zirkoshe_discard(client, client->socket);
    failed =
        zirkoshe_call(client, ZIRKOSHE_HELLO, "III", values, ZIRKOSHE_ANSWER_OPENED, "I", &number);
    if (failed)
        return zirkoshe_discard(client, failed);
    client->number = ZIRKOSHE_CAST(uint32_t, number);
    return 0;
}

/* Opening and closing */

/* Opens the node of this path: the server's card, render or root socket. The time limit is in
 * milliseconds. Universal planes are off until zirkoshe_drmSetClientCap turns them on, as in a
 * kernel. If it fails, there is nothing to close. */
static inline int zirkoshe_open(struct zirkoshe_client *client, const char *path, int timeout)
{
    return zirkoshe_open_by(client, path, 2, 0, 0, timeout);
}

/* Opens by a lease token, on the card or the root socket, and spends it. */
static inline int zirkoshe_open_lease(struct zirkoshe_client *client, const char *path,
                                      uint32_t token, int timeout)
{
    return zirkoshe_open_by(client, path, 2, 1, token, timeout);
}

/* Opens by version 1 of the hello: universal planes are on from the start. */
static inline int zirkoshe_open1(struct zirkoshe_client *client, const char *path, int timeout)
{
    return zirkoshe_open_by(client, path, 1, 0, 0, timeout);
}

/* Opens by a lease token and by version 1 of the hello. */
static inline int zirkoshe_open1_lease(struct zirkoshe_client *client, const char *path,
                                       uint32_t token, int timeout)
{
    return zirkoshe_open_by(client, path, 1, 1, token, timeout);
}

/* The old names of zirkoshe_open and zirkoshe_open_lease, for one version. */
static inline int zirkoshe_open2(struct zirkoshe_client *client, const char *path, int timeout)
{
    return zirkoshe_open(client, path, timeout);
}

static inline int zirkoshe_open2_lease(struct zirkoshe_client *client, const char *path,
                                       uint32_t token, int timeout)
{
    return zirkoshe_open_lease(client, path, token, timeout);
}

/* Ends the connection, which is held. In a child of fork it closes the child's copy alone. */
static inline int zirkoshe_close_held(struct zirkoshe_client *client)
{
    unsigned char more;
    int failed;

    if (client->socket < 0 || !zirkoshe_is_own(client))
        return zirkoshe_abandon(client, 0);
    shutdown(client->socket, SHUT_WR);
    failed =
        zirkoshe_take_all(client->socket, &more, 1, zirkoshe_now() + client->timeout, -ECONNRESET);
    return zirkoshe_abandon(client, failed == 0 ? -EPROTO : failed == -ECONNRESET ? 0 : failed);
}

/* Ends the connection, and waits until the server has closed the client and released what it owned.
 * Later calls return -ENOTCONN. Other threads may use the client meanwhile. In a child of fork it
 * closes the child's copy of the socket, and the parent's connection stays open. */
static inline int zirkoshe_disconnect(struct zirkoshe_client *client)
{
    int failed;

    if (!client->is_ready)
        return 0;
    zirkoshe_lock(client);
    client->rule = 0;
    failed = zirkoshe_close_held(client);
    zirkoshe_unlock(client);
    return failed;
}

/* Ends the connection like zirkoshe_disconnect, and frees what the client needs. No other thread
 * may use the client. A second time it does nothing. */
static inline int zirkoshe_close(struct zirkoshe_client *client)
{
    int failed = zirkoshe_disconnect(client);

    return client->is_ready ? zirkoshe_discard(client, failed) : failed;
}

#endif
