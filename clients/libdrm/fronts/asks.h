/* Asking the display, for a front end: the preloaded library, or the supervisor. */
#ifndef ZIRKOSHE_LIBDRM_ASKS_H
#define ZIRKOSHE_LIBDRM_ASKS_H

#include "nodes.h"
#include "packets.h"

#include <stddef.h>
#include <stdint.h>
#include <sys/types.h>
#include <sys/uio.h>

/* Opens a node on a socket of the display, and returns a descriptor that is closed at exec, or a
 * negative errno. */
int ask_to_open(int way, enum node node, int flags);

/* Asks the request of an ioctl, whose struct the caller has at this address. Returns 0 or a
 * negative errno. */
int ask_ioctl(int fd, uint32_t request, uint64_t address);

/* Returns a descriptor of the memory of a mapping, which begins at a place in it, or a negative
 * errno. */
int ask_for_memory(int fd, uint64_t offset, uint64_t length, uint64_t *place);

/* Asks the request of an ioctl of a PRIME descriptor, likewise. Memory that all share needs no
 * keeping in step. */
int ask_of_memory(uint32_t request, uint64_t address);

/* A socket for answers, whose other end the display has under a number */
struct channel {
    struct channel *next;
    int fd;          /* or -1 */
    uint64_t cookie; /* a program may close what it doesn't know */
    pid_t process;   /* a child of fork has a copy of its parent's */
    uint32_t number, tag;
    _Alignas(16) uint8_t bytes[MOST_PACKET];
};

/* Makes the ends of a socket for answers: the other one is the display's, which channel_note sends
 * it on a socket, and closes. Returns whether a socket is still that of the channel, and closes it.
 */
bool channel_make(struct channel *channel, int *other);
int channel_note(struct channel *channel, int other, int way);
bool channel_is_there(const struct channel *channel);
void channel_end(struct channel *channel);

/* memory.c: copies from the memory of the caller, or to it, also several parts. Returns 0 or
 * -EFAULT. */
int caller_reads(void *to, uint64_t address, size_t size);
int caller_reads_all(const struct iovec *here, const struct iovec *there, size_t count);
int caller_takes(uint64_t address, const void *from, size_t size);
int caller_takes_all(const struct iovec *here, const struct iovec *there, size_t count);

/* What each front end defines: */

/* Takes a socket for answers, with the end for the display if it is new (or else -1), and lets it
 * go. Returns NULL with errno if there is none. */
struct channel *channel_take(int *other);
void channel_let(struct channel *channel);

/* The task whose system call is answered, its process and its user */
struct caller {
    pid_t task, process;
    uid_t user;
};

/* Returns the caller, or NULL if it is this thread. */
const struct caller *caller_now(void);

/* Returns a descriptor for the caller's, or a negative errno, and ends that. Meanwhile no other
 * thread of the front end has one. */
int caller_file(int fd);
void caller_file_end(int fd);

/* How long a front end waits at once, in nanoseconds. Whether the caller was interrupted meanwhile,
 * or has ended, where that doesn't end the wait. */
extern const int64_t longest_wait;
bool caller_is_interrupted(void);

/* Hands a descriptor that was opened here to the caller. Returns its number there, or a negative
 * errno. */
int caller_gets(int fd, int flags);

#endif
