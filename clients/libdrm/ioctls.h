/* The answering of a request. */
#ifndef ZIRKOSHE_LIBDRM_IOCTLS_H
#define ZIRKOSHE_LIBDRM_IOCTLS_H

#include "connections.h"

/* How many descriptors a request makes at most: one of each CRTC, and one that is waited on */
#define MOST_MADE 34

/* What comes of a request besides its struct. */
struct outcome {
    struct connection *opened; /* a lessee's; the caller gets a descriptor of it */
    int64_t until;             /* the caller waits until then, or 0, */
    bool is_again;             /* and asks again; */
    bool is_awaited;           /* or until the first descriptor is readable, which has the answer */
    int descriptors[MOST_MADE]; /* that the request made for the caller, */
    unsigned count;             /* so many, */
    unsigned fences;            /* of which the last are those of the last writes */
    uint32_t rule;              /* by which the server refused it, or 0 */
    const char *name;           /* of the request */
};

/* display/callers.c: that of the request that is answered. */
struct outcome *outcome(void);

/* Hands a descriptor to the caller of the request that is answered; 0. Takes back those of the last
 * writes, and these. */
int outcome_has(int descriptor);
void outcome_drops_fences(void);

/* Returns whether a request changes nothing that another one can see. */
bool is_reading(uint32_t request);

/* Answers a request of a connection with a copy of its struct; 0, or a negative errno. What it
 * writes to the copy is the caller's if the request is one that writes. */
int carry_out(struct connection *connection, uint32_t request, void *argument);

/* The line of the trace for the request that is answered; its length. */
int trace_line(char *line, size_t room, int result);

#endif
