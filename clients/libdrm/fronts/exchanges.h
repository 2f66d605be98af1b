/* What is sent to the display, what is answered, and the descriptors of both. */
#ifndef ZIRKOSHE_LIBDRM_EXCHANGES_H
#define ZIRKOSHE_LIBDRM_EXCHANGES_H

#include "asks.h"

/* Descriptors of an answer at most: one of each CRTC, and one that is waited on */
#define MOST_TAKEN 34

/* What is sent: bytes, and descriptors, each of which may be -1. */
struct sent {
    struct channel *channel; /* whose bytes begin with the packet, but for `ask` */
    struct ask ask;
    size_t length;
    int other;                   /* the display's end of a socket for answers */
    int aside;                   /* the file with the lists */
    int attached[MOST_ATTACHED]; /* the caller's numbers of what comes with it, */
    unsigned count;              /* so many */
};

/* What is answered. The kernel puts the struct where it belongs, if that is in this process;
 * otherwise it is first in `bytes`, which have what follows the reply. */
struct answer {
    struct reply reply;
    struct iovec argument;
    uint8_t *bytes;
    size_t length;
    int descriptors[MOST_TAKEN];
    unsigned count;
};

/* attachments.c: returns whether a request is one that is known. Newer headers have longer structs
 * of some. */
bool is_same(uint32_t request, uint32_t known);

/* Attaches descriptors that a request names, as far as they are what it takes. */
void attach_descriptors(struct sent *sent, const void *argument);

/* Attaches the fences of a commit, whose properties and values are these bytes. Says there at which
 * position each is, and tries the addresses for others. */
void attach_fences(struct sent *sent, const uint8_t *properties, uint8_t *values);

/* Returns whether the answer to a request has a descriptor whose number is in the struct. */
bool makes_descriptor(uint32_t request);

/* Hands descriptors of an answer to the caller, and puts their numbers into the struct and the last
 * writes. Returns 0, or a negative errno. */
int put_descriptors(struct answer *answer, const struct sent *sent);

#endif
