/* The lock of the display, and the order in which it does what it is asked: first come, first
 * served. What only reads runs together, and what changes something runs alone, as under a kernel's
 * lock. If the server takes longer than a second, the turn is late, and others begin. */
#include "display.h"

#include <limits.h>

#define LATE SECOND
/* How long a thread waits for the server before its client looks at the time, in milliseconds */
#define A_WHILE 1000

/* It is held for so short that a thread which waits for it first tries again for a while. */
static pthread_mutex_t lock = PTHREAD_ADAPTIVE_MUTEX_INITIALIZER_NP;
static _Thread_local bool has_lock;
static struct turn *begun;                      /* all that have begun */
static struct turn *waiting, **last = &waiting; /* those that wait to begin */

void display_lock(void)
{
    pthread_mutex_lock(&lock);
    has_lock = true;
}

void display_unlock(void)
{
    if (!has_lock)
        return;
    has_lock = false;
    pthread_mutex_unlock(&lock);
}

void turn_prepare(struct turn *turn)
{
    pthread_condattr_t clock;

    memset(turn, 0, sizeof *turn);
    pthread_condattr_init(&clock);
    pthread_condattr_setclock(&clock, CLOCK_MONOTONIC);
    pthread_cond_init(&turn->may_begin, &clock);
    pthread_condattr_destroy(&clock);
}

void turn_free(struct turn *turn)
{
    pthread_cond_destroy(&turn->may_begin);
}

/* Returns whether a turn may begin while those run that have begun and are not late. */
static bool may_begin(const struct turn *turn, int64_t time)
{
    struct turn *each;
    bool may = true;

    for (each = begun; each != NULL; each = each->next) {
        each->is_late = each->is_late || time - each->begun > LATE;
        may = may && (each->is_late || (each->is_reading && turn->is_reading));
    }
    return may;
}

/* Begins all that may. */
static void begin(void)
{
    while (waiting != NULL && may_begin(waiting, time_now())) {
        struct turn *turn = waiting;

        waiting = turn->next;
        if (waiting == NULL)
            last = &waiting;
        turn->begun = time_now();
        turn->is_begun = true;
        turn->next = begun;
        begun = turn;
        pthread_cond_signal(&turn->may_begin);
    }
}

void turn_queue(struct turn *turn, bool is_reading)
{
    turn->is_reading = is_reading;
    turn->is_queued = true;
    turn->is_begun = turn->is_late = false;
    turn->next = NULL;
    *last = turn;
    last = &turn->next;
    begin();
}

/* Returns when the first of those that have begun will be late. */
static int64_t next_late(void)
{
    const struct turn *each;
    int64_t next = INT64_MAX;

    for (each = begun; each != NULL; each = each->next) {
        if (!each->is_late && each->begun + LATE < next)
            next = each->begun + LATE + 1;
    }
    return next;
}

void turn_wait(struct turn *turn)
{
    while (!turn->is_begun) {
        int64_t next = next_late();
        const struct timespec late = {(time_t)(next / SECOND), (long)(next % SECOND)};

        if (next == INT64_MAX)
            pthread_cond_wait(&turn->may_begin, &lock);
        else
            pthread_cond_timedwait(&turn->may_begin, &lock, &late);
        begin();
    }
}

void turn_end(struct turn *turn)
{
    struct turn **place = &begun;

    while (*place != turn)
        place = &(*place)->next;
    *place = turn->next;
    turn->is_queued = turn->is_begun = false;
    begin();
}

bool turns_are_done(void)
{
    return may_begin(&(struct turn){.is_reading = false}, time_now());
}

int task_poll(struct pollfd *waited, nfds_t count, int milliseconds)
{
    int ready;

    display_unlock();
    ready = poll(waited, count, milliseconds);
    display_lock();
    return ready;
}

/* After what is sent, an answer is received, which takes the lock again. */
ssize_t task_send(int socket, const void *bytes, size_t size, int flags)
{
    ssize_t sent;
    int error;

    display_unlock();
    sent = send(socket, bytes, size, flags);
    error = errno;
    if (sent < 0)
        display_lock();
    errno = error;
    return sent;
}

/* A thread that waits in recv would also be woken when the server takes what it sent. */
ssize_t task_receive(int socket, void *bytes, size_t size, int flags)
{
    struct pollfd waited = {socket, POLLIN, 0};
    ssize_t received;
    int error;

    display_unlock();
    poll(&waited, 1, A_WHILE);
    received = recv(socket, bytes, size, flags | MSG_DONTWAIT);
    error = errno;
    display_lock();
    errno = error;
    return received;
}
