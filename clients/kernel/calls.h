/* The calls of a script as ioctls. */
#ifndef DRM_SCRIPT_CALLS_H
#define DRM_SCRIPT_CALLS_H

#include "session.h"

struct caller {
    /* the number of the client, from 1, or 0 for none */
    unsigned number;
    /* its descriptor, or -1 for a client that is not open */
    int file;
};

/* A call that is more than a structure with the fields and the answer in it. */
struct special_call {
    const char *word;
    /* the fields that it takes; UINT32_MAX for a list */
    unsigned count;
    void (*make)(struct session *session, const struct line *line, const struct caller *caller);
};

/* Those of buffers and clients, of mode objects, and of leases; each table ends with a row without
 * a word. */
extern const struct special_call buffer_calls[];
extern const struct special_call mode_calls[];
extern const struct special_call lease_calls[];

/* Makes the call of a line, and writes its answer. */
void make_call(struct session *session, const struct line *line, const struct caller *caller);

/* Makes an ioctl, again where a signal interrupted it. */
int make_ioctl(const struct caller *caller, unsigned long request, void *data);

/* Writes ids of objects as a list: those that are not bound as one word `other` at its end. */
void answer_objects(struct session *session, const uint32_t *ids, unsigned count);

/* Writes numbers as a list. */
void answer_numbers(struct session *session, const uint32_t *numbers, unsigned count);

#endif
