/* Commits that don't block, and wait for fences: they are carried out when these are signalled.
 * Until then, each CRTC of one is busy, and shows what it did before. */
#ifndef ZIRKOSHE_LIBDRM_LATE_COMMITS_H
#define ZIRKOSHE_LIBDRM_LATE_COMMITS_H

#include "commits.h"

/* A commit that waits, with the fences that its CRTCs signal */
struct late_commit {
    struct watch watch; /* of one of those that it waits for */
    struct late_commit *next;
    struct connection *connection;
    struct drm_mode_atomic asked;
    struct caller_memory *memory; /* the lists of the request */
    struct fence *before[MOST_OBJECTS];
    struct {
        uint32_t id;
        struct fence *fence; /* or NULL */
    } crtcs[MOST_OBJECTS];
    uint32_t count;
    struct fence *done;
};

/* Keeps a commit that passed all checks for later, with its fences; 0, or a negative errno. */
int late_commit_add(struct commit *commit, const struct drm_mode_atomic *asked);

/* Returns what is signalled when the commit that a CRTC waits for is carried out; NULL if it waits
 * for none. The same of all CRTCs of a commit. */
struct fence *late_commit_of_crtc(uint32_t crtc_id);
struct fence *late_commit_of(const struct commit *commit);

/* Lets the caller wait for a fence, and then ask again; a negative errno. */
int wait_and_ask_again(struct fence *fence);

/* Drops those of a connection that is closed. */
void late_commits_end(const struct connection *connection);

/* Returns whether some are to be carried out. Does that. */
bool late_commits_are_ready(void);
void late_commits_carry_out(void);

/* atomic_calls.c: carries a commit out whose fences are signalled. */
void carry_out_late(struct connection *connection, const struct late_commit *late);

#endif
