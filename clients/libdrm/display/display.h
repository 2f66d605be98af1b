/* The display: one process that has the connections to the server, one for each open file of a
 * node, and all that a driver keeps besides the rules. Programs reach it by the preloaded library
 * or by a supervisor.
 *
 * Each open file has a thread, and one lock is for all that the threads share. A thread lets the
 * lock go only while it waits for a packet, the server or its turn, and while it sends an answer.
 */
#ifndef ZIRKOSHE_LIBDRM_DISPLAY_H
#define ZIRKOSHE_LIBDRM_DISPLAY_H

#include "callers.h"
#include "connections.h"
#include "ioctls.h"
#include "packets.h"

#include <pthread.h>
#include <sys/socket.h>

/* turns.c: takes the lock, or lets it go if this thread has it. */
void display_lock(void);
void display_unlock(void);

/* A place in the order of what is done. What changes something is alone, and what only reads may
 * run next to others that do. */
struct turn {
    struct turn *next; /* of those that wait, or have begun */
    pthread_cond_t may_begin;
    bool is_reading;
    bool is_queued; /* it waits, or has begun */
    bool is_begun;
    bool is_late; /* it has taken a second: others begin meanwhile */
    int64_t begun;
};

/* Prepares a turn, and frees it. */
void turn_prepare(struct turn *turn);
void turn_free(struct turn *turn);

/* Queues a turn after those that wait; waits until it has begun, also if it is to be queued yet;
 * and ends it. */
void turn_queue(struct turn *turn, bool is_reading);
void turn_wait(struct turn *turn);
void turn_end(struct turn *turn);

/* Returns whether no turn has begun, but for late ones. */
bool turns_are_done(void);

/* What the main loop waits for */
enum source_kind {
    SOURCE_LISTENER,
    SOURCE_CONTROL,
    SOURCE_PEER,
    SOURCE_PROXY,
    SOURCE_CHANNEL,
    SOURCE_EVENTS,
    SOURCE_FENCES,
    SOURCE_BUFFERS,
    SOURCE_ENDS,
    SOURCE_SIGNALS /* and the end of the supervisor */
};

struct source {
    enum source_kind kind;
    int fd;
};

/* main.c: has the loop wait for a source, or no more. Takes the lock for what is asked next, once
 * what ended before is seen; but at the end of the display, nothing more is taken. */
bool source_add(struct source *source, uint32_t events);
void source_remove(struct source *source);
void display_lock_to_begin(void);

/* The display's end of a pair of sockets: an open file of a node, an opener, or the supervisor */
struct peer {
    struct source source;
    struct connection *connection; /* of a file */
    struct proxy *proxy;           /* in place of one, of a fence */
    uid_t user;                    /* the user that opened the file */
    bool is_supervisor;            /* it is believed whose process it names */
    bool is_ending;                /* no program has the other end */
    struct turn turn;              /* of the packet that is answered */
    struct turn last;              /* of the end, and of what is left then */
};

/* peers.c: makes a pair of sockets, of which the display has the first one. That has a name, by
 * which the other one is recognized. Returns 0 or a negative errno. Closes both. */
int pair_make(int ends[2], const char *kind, unsigned long number);
void pair_close(const int ends[2]);

/* Adds the display's end of a pair, or NULL if there is no memory; or that of an opener,
 * which is closed then. Begins to end a peer. */
struct peer *peer_add(int fd);
void opener_add(int fd);
void peer_end(struct peer *peer);

/* Returns whether a user may have another file. Makes that of a connection, with flags of open,
 * which owns the connection. Returns the program's end, or a negative errno. */
bool file_has_room(uid_t user);
int file_make(struct connection *connection, uint64_t flags, uid_t user);

/* A socket of a thread for its answers */
struct channel {
    struct source source;
    uint32_t number;
    pid_t process;
    uid_t user;
    bool is_supervisor;
    atomic_uint users; /* the table of them, and each thread that sends an answer */
};

/* channels.c: notes a socket that came with a packet, or finds one that a process has; NULL if
 * there is none. Ends one. Keeps one until channel_release, which needs no lock. */
struct channel *channel_add(int fd, const struct ucred *sender, bool is_supervisor);
struct channel *channel_find(uint32_t number, pid_t process);
void channel_end(struct channel *channel);
void channel_use(struct channel *channel);
void channel_release(struct channel *channel);

/* The socket for answers, the lists, and others; as many as fit into what the kernel rounds up to
 */
#define MOST_RECEIVED (MOST_ATTACHED + 2)

/* A packet with what was sent along */
struct packet {
    struct ask ask;
    const uint8_t *argument; /* the struct, */
    const uint8_t *lists;    /* and the lists, */
    uint8_t *aside;          /* which may have come in a file */
    struct ucred sender;
    int socket;       /* a new one for answers, or -1 */
    uint32_t channel; /* the number of the socket for the answer */
    bool is_right;
    int received[MOST_RECEIVED];
    int count, taken;
    _Alignas(16) uint8_t bytes[MOST_PACKET];
};

/* What is written to the caller */
struct written {
    uint8_t *bytes;
    size_t length, room;
    uint32_t count; /* how many writes to its memory */
};

/* A packet of a peer, and its answer */
struct task {
    struct peer *peer;
    struct turn *turn; /* which ends before the answer is sent, or NULL */
    struct packet packet;
    struct ucred caller;
    struct written written;
    struct outcome outcome;
};

/* peers.c: what this thread answers; lets it answer this. */
struct task *task_now(void);
void task_begin(struct task *task);

/* packets.c: waits for a packet without the lock; false at the end. Returns whether its request
 * only reads. Answers it. Returns whether no answer is being sent. */
bool packet_receive(struct task *task);
bool packet_is_reading(const struct task *task);
void packet_answer(struct task *task);
bool packets_are_answered(void);

/* proxies.c: answers a request on the descriptor of a proxy. Sees what was sent to one, or its end;
 * only the main loop may. */
int proxy_carry_out(const struct proxy *proxy, uint32_t request, void *argument);
void proxy_attend(struct source *source);

/* callers.c: puts bytes into what is written. Returns their place, or NULL if there is no memory.
 */
uint8_t *written_add(struct written *written, size_t size);

#endif
