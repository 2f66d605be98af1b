/* The fences of a commit: those that it waits for, and those that it makes. */
#ifndef ZIRKOSHE_LIBDRM_COMMIT_FENCES_H
#define ZIRKOSHE_LIBDRM_COMMIT_FENCES_H

#include "fences.h"
#include "topologies.h"

struct commit;

struct commit_fences {
    struct fence *before[MOST_OBJECTS]; /* by the positions of planes: what is waited for */
    uint64_t addresses[MOST_OBJECTS]; /* by those of CRTCs: of the numbers of descriptors, or 0, */
    struct fence *made[MOST_OBJECTS]; /* and what is signalled when the commit is complete */
};

/* Sets IN_FENCE_FD of a plane, and OUT_FENCE_PTR of a CRTC; 0, or a negative errno. */
int commit_waits_for(struct commit *commit, uint32_t plane, int64_t position);
int commit_signals_at(struct commit *commit, uint32_t crtc, uint64_t address);

/* Returns whether a CRTC is to signal a fence. */
bool commit_signals(const struct commit *commit, uint32_t crtc_id);

/* Returns a fence that isn't signalled yet and is waited for, or NULL. */
struct fence *commit_pending(const struct commit *commit);

/* Makes the fences, and descriptors of them for the caller; 0, or a negative errno. Takes them
 * back. */
int commit_make_fences(struct commit *commit);
void commit_drop_fences(struct commit *commit);

/* Lets the caller wait until all of them are signalled, which is at this time; 0, or a negative
 * errno.
 */
int commit_completes(const struct commit *commit, int64_t due);

#endif
