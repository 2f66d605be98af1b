/* The display's ends of pairs of sockets: the open files of nodes, openers, and the supervisor.
 * Each has a thread. */
#include "display.h"

#include <stdio.h>
#include <stdlib.h>
#include <sys/epoll.h>
#include <sys/un.h>

/* The server has 64 clients at once on each socket. Users other than root leave some of them. */
#define MOST_FILES_OF_USER 56
#define MOST_USERS 64
/* The most openers that have not sent a packet. If there are more, the first one is closed. */
#define MOST_OPENERS 256
#define STACK ((size_t)1024 * 1024)
/* The room for what is written that a thread keeps at most */
#define MOST_ROOM_KEPT ((size_t)1024 * 1024)

static struct {
    uid_t user;
    unsigned count;
} users[MOST_USERS]; /* how many files each has */

static struct peer *openers[MOST_OPENERS]; /* a ring */
static unsigned next_opener;
static _Thread_local struct task *now;

struct task *task_now(void)
{
    return now;
}

void task_begin(struct task *task)
{
    now = task;
}

/* What its holders sent before is answered in its last turn, since another thread may wait for it.
 */
void peer_end(struct peer *peer)
{
    if (peer->is_ending)
        return;
    peer->is_ending = true;
    source_remove(&peer->source);
    turn_queue(&peer->last, false);
}

/* The place with how many files a user has, or NULL if no more users have room. */
static unsigned *count_of(uid_t user)
{
    size_t at, free_at = MOST_USERS;

    for (at = 0; at < MOST_USERS; at++) {
        if (users[at].count > 0 && users[at].user == user)
            return &users[at].count;
        if (users[at].count == 0)
            free_at = at;
    }
    if (free_at == MOST_USERS)
        return NULL;
    users[free_at].user = user;
    return &users[free_at].count;
}

int pair_make(int ends[2], const char *kind, unsigned long number)
{
    struct sockaddr_un address = {.sun_family = AF_UNIX};
    int length = snprintf(address.sun_path + 1, sizeof address.sun_path - 1, "%s%lu", kind, number);
    size_t size = offsetof(struct sockaddr_un, sun_path) + 1 + (size_t)length;
    int on = 1, failed;

    if (socketpair(AF_UNIX, SOCK_SEQPACKET | SOCK_CLOEXEC, 0, ends) != 0)
        return -errno;
    if (bind(ends[0], (struct sockaddr *)&address, (socklen_t)size) == 0
        && setsockopt(ends[0], SOL_SOCKET, SO_PASSCRED, &on, sizeof on) == 0)
        return 0;
    failed = -errno;
    pair_close(ends);
    return failed;
}

void pair_close(const int ends[2])
{
    close(ends[0]);
    close(ends[1]);
}

static void answer(struct task *task)
{
    struct peer *peer = task->peer;

    display_lock_to_begin();
    task->turn = peer->is_ending ? NULL : &peer->turn;
    if (task->turn != NULL)
        turn_queue(task->turn, packet_is_reading(task));
    turn_wait(task->turn != NULL ? task->turn : &peer->last);
    packet_answer(task);
    /* no thread of the caller waits for the answer */
    if (task->turn != NULL)
        turn_end(task->turn);
    display_unlock();
}

static void forget_opener(const struct peer *opener)
{
    size_t at;

    for (at = 0; at < MOST_OPENERS; at++)
        openers[at] = openers[at] == opener ? NULL : openers[at];
}

static void free_peer(struct peer *peer)
{
    turn_free(&peer->turn);
    turn_free(&peer->last);
    free(peer);
}

static void end(struct peer *peer)
{
    display_lock_to_begin();
    peer_end(peer);
    turn_wait(&peer->last);
    if (peer->connection != NULL) {
        --*count_of(peer->user);
        connection_close(peer->connection);
    }
    forget_opener(peer);
    close(peer->source.fd);
    turn_end(&peer->last);
    free_peer(peer);
    display_unlock();
}

/* Keeps no more room than others need. */
static void shrink(struct written *written, size_t most)
{
    if (written->room <= most)
        return;
    free(written->bytes);
    *written = (struct written){NULL, 0, 0, 0};
}

/* What the thread of a peer does. */
static void *attend(void *peer)
{
    struct task task;

    task.peer = peer;
    task.written = (struct written){NULL, 0, 0, 0};
    task_begin(&task);
    while (packet_receive(&task)) {
        answer(&task);
        shrink(&task.written, MOST_ROOM_KEPT);
    }
    shrink(&task.written, 0);
    end(peer);
    return NULL;
}

static bool begin_thread(struct peer *peer)
{
    pthread_attr_t form;
    pthread_t thread;
    bool has_begun;

    if (pthread_attr_init(&form) != 0)
        return false;
    has_begun = pthread_attr_setstacksize(&form, STACK) == 0
                && pthread_attr_setdetachstate(&form, PTHREAD_CREATE_DETACHED) == 0
                && pthread_create(&thread, &form, attend, peer) == 0;
    pthread_attr_destroy(&form);
    return has_begun;
}

struct peer *peer_add(int fd)
{
    struct peer *made = calloc(1, sizeof *made);

    if (made == NULL)
        return NULL;
    made->source = (struct source){SOURCE_PEER, fd};
    turn_prepare(&made->turn);
    turn_prepare(&made->last);
    /* the loop sees its end */
    if (source_add(&made->source, 0) && begin_thread(made))
        return made;
    free_peer(made);
    return NULL;
}

/* An opener that gives way is at its end, which its thread sees. */
void opener_add(int fd)
{
    struct peer **place = &openers[next_opener++ % MOST_OPENERS];
    struct peer *made = peer_add(fd);

    if (made == NULL) {
        close(fd);
        return;
    }
    if (*place != NULL)
        shutdown((*place)->source.fd, SHUT_RDWR);
    *place = made;
}

/* Makes the pair of sockets. Returns the program's end, or a negative errno. */
static int make_pair(struct connection *connection, uint64_t flags, struct peer **made)
{
    static unsigned long last;
    char kind[64];
    int ends[2], failed;

    *made = NULL;
    snprintf(kind, sizeof kind, NODE_NAME "%d-%d-", (int)connection->node, (int)getpid());
    failed = pair_make(ends, kind, ++last);
    if (failed)
        return failed;
    if (fcntl(ends[1], F_SETFL, flags & O_NONBLOCK) == 0)
        *made = peer_add(ends[0]);
    if (*made != NULL)
        return ends[1];
    pair_close(ends);
    return -ENOMEM;
}

bool file_has_room(uid_t user)
{
    const unsigned *count = count_of(user);

    return count != NULL && (user == 0 || *count < MOST_FILES_OF_USER);
}

int file_make(struct connection *connection, uint64_t flags, uid_t user)
{
    struct peer *made;
    int fd = file_has_room(user) ? make_pair(connection, flags, &made) : -EMFILE;

    if (fd < 0) {
        connection_close(connection);
        return fd;
    }
    made->connection = connection;
    made->user = user;
    connection->events.file = made->source.fd;
    ++*count_of(user);
    return fd;
}
