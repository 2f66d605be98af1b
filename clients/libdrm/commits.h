/* An atomic commit: the state before it, the state after it, and what of the device is in it. */
#ifndef ZIRKOSHE_LIBDRM_COMMITS_H
#define ZIRKOSHE_LIBDRM_COMMITS_H

#include "commit_fences.h"
#include "connections.h"
#include "states.h"

struct commit {
    struct connection *connection;
    const struct topology *topology;
    struct state before, after;
    uint64_t planes, crtcs, connectors; /* masks of positions in the topology: what is in it */
    struct commit_fences fences;
    bool may_set_modes;
    bool has_event;
    bool is_late; /* its fences are signalled and made */
};

/* Begins a commit of what the caller sees; 0, or a negative errno. */
int commit_begin(struct commit *commit, struct connection *connection);

/* An object of a commit: one that the caller sees, and that has properties. */
struct part {
    uint32_t id, kind;
    const struct seen_plane *plane; /* NULL for other kinds */
};

/* Adds an object without a property. -ENOENT if the caller does not see it. */
int commit_add(struct commit *commit, uint32_t object_id, struct part *added);

/* Sets a property of an object that was added, as drm_atomic_set_property does. */
int commit_set(struct commit *commit, const struct part *part, uint32_t property_id,
               uint64_t value);

/* Checks the state after the commit, as drm_atomic_check_only does, and the rules of the server. */
int commit_check(struct commit *commit);

/* Shows it, one call for each framebuffer that changes. If the server denies one, those before it
 * are taken back. */
int commit_show(struct commit *commit);

#endif
