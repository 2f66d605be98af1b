/* The packets between the front ends and the display.
 *
 * A request is one packet: `struct ask`, the request's struct, and the lists that it points to. An
 * opening goes to the display's socket, all else to the descriptor of a node. An answer is one
 * packet on the socket of the calling thread: `struct reply`, the struct, what is written to the
 * caller's memory, and a line of the trace.
 *
 * Both ends are of one machine and of one build; a field that is wrong is refused.
 */
#ifndef ZIRKOSHE_LIBDRM_PACKETS_H
#define ZIRKOSHE_LIBDRM_PACKETS_H

#include <stdint.h>

#define PACKET_FORM 0x5a4b0001u
#define MOST_LISTS 4
/* Descriptors of the caller's that a request names, at most: of a commit, a fence of each plane */
#define MOST_ATTACHED 64
#define MOST_PACKET (128 * 1024)
/* Lists and writes that are longer together are in a file, whose descriptor comes with the packet.
 */
#define MOST_INLINE (64 * 1024)
#define MOST_LONG (64 * 1024 * 1024)

enum ask_kind {
    ASK_OPEN,
    ASK_IOCTL,
    ASK_MAP,
    ASK_NOTHING /* but to note the socket for answers */
};

enum ask_flags {
    HAS_CHANNEL = 1, /* the first descriptor is the socket for answers to this thread */
    TRACES_FAILURES = 4,
    TRACES_ALL = 8,
    HAS_LISTS = 16, /* the last descriptor has the lists, in place of the packet */
};

/* The properties of a commit whose values are of the caller's process: the number of a descriptor,
 * in whose place the packet has its position among those that come with it, or one that none has;
 * and the address of one, which is ADDRESS_IS_WRONG if it can't be written to. */
#define PROPERTY_OUT_FENCE_PTR 1007
#define PROPERTY_IN_FENCE_FD 1018
#define NOT_ATTACHED INT32_MAX
#define ADDRESS_IS_WRONG UINT64_MAX

/* Bytes of the caller's memory, which follow in this order. */
struct list {
    uint64_t address, size;
};

struct ask {
    uint32_t form;
    uint32_t kind;
    uint32_t request; /* of ioctl; the node of an opening */
    uint32_t flags;
    uint32_t channel;        /* the number of the socket for answers, if it was given before */
    uint32_t tag;            /* the answer has it too */
    uint64_t offset, length; /* of a mapping */
    uint64_t open_flags;
    int32_t process; /* whose request a supervisor sends, */
    uint32_t user;   /* and of which user */
    struct list lists[MOST_LISTS];
};

struct reply {
    int32_t result; /* 0 or a negative errno */
    uint32_t tag;
    uint32_t channel;
    uint32_t size;       /* of the struct */
    uint32_t writes;     /* how many writes follow it: each a `struct list` and its bytes */
    uint32_t traced;     /* the length of the line */
    int64_t until;       /* the caller waits until then, in nanoseconds of CLOCK_MONOTONIC, or 0, */
    uint32_t is_again;   /* and asks again; */
    uint32_t is_awaited; /* or until the descriptor is readable, and then asks again, or takes the
                            answer from it */
    uint32_t descriptors; /* how many come with it */
    uint32_t is_long;     /* the first one has all that follows this struct */
    uint32_t
        fences; /* of the last writes, each gets the number of a descriptor, of the last ones */
    uint32_t pad;
    uint64_t place; /* of a mapping, in the descriptor's file */
};

#endif
