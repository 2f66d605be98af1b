/* A script's clients on a device, and the kernel's numbers of them. */
#ifndef DRM_SCRIPT_SESSION_H
#define DRM_SCRIPT_SESSION_H

#include <stdbool.h>
#include <stdint.h>

#include "devices.h"
#include "lines.h"
#include "numbers.h"

#define MOST_CLIENTS 1024
#define MOST_SHAPES 4096

struct client {
    int file;
    bool is_root;
    bool is_open;
};

/* A descriptor that represents a token: of PRIME, or of a lease. */
struct descriptor {
    int file;
    /* the client that got it from the kernel */
    unsigned owner;
    /* a descriptor of a lease that an opening took */
    bool is_taken;
};

/* The size of a framebuffer, by the kernel's id. */
struct shape {
    uint32_t id;
    uint32_t width;
    uint32_t height;
};

struct session {
    const struct device *device;
    bool is_privileged;
    /* the client of each label, from 1, or 0 for a label that is not bound */
    unsigned labels[26];
    unsigned client_count;
    struct client clients[MOST_CLIENTS];
    /* mode objects and framebuffers */
    struct numbers objects;
    /* tokens, whose kernel's numbers are places in `descriptors` */
    struct numbers tokens;
    struct numbers leases;
    unsigned descriptor_count;
    struct descriptor descriptors[MOST_NUMBERS];
    unsigned shape_count;
    struct shape shapes[MOST_SHAPES];
    /* the answer to the current line */
    char answer[MOST_TEXT];
};

/* A session without clients. Returns whether there was memory for one. */
struct session *create_session(const struct device *device, bool is_privileged);

/* Carries out a line, and leaves its answer in the session. */
void carry_out(struct session *session, const struct line *line);

/* Writes the answer to the line, as `printf` does. */
void answer(struct session *session, const char *format, ...) __attribute__((format(printf, 2, 3)));

/* Writes that the call failed, with its errno. */
void answer_errno(struct session *session);

/* Keeps a descriptor that the kernel gave this client, as a token of the script. Returns the
 * script's number. */
uint32_t keep_descriptor(struct session *session, struct numbers *tokens, uint32_t script, int file,
                         unsigned owner);

/* The descriptor of a token, or a null pointer if there is none. */
struct descriptor *find_descriptor(struct session *session, const struct numbers *tokens,
                                   uint32_t script);

/* The kernel's id of an object: one that no object has if the script's is not bound. */
uint32_t kernel_object(const struct session *session, uint32_t script);

/* The script's id of an object: the kernel's own if it is not bound. */
uint32_t script_object(const struct session *session, uint32_t kernel);

#endif
