/* What is known of CRTCs, and their vertical blanking, which is made here.
 *
 * The server has no modes and no time. A CRTC that shows something blanks by the mode that a
 * program set there last. If a client of the server lit it, it blanks by the preferred mode, from
 * the moment on at which it was first seen lit.
 */
#ifndef ZIRKOSHE_LIBDRM_CRTCS_H
#define ZIRKOSHE_LIBDRM_CRTCS_H

#include <stdbool.h>
#include <stdint.h>

#include <drm_mode.h>

/* When a CRTC blanks */
struct blanking {
    int64_t begin;  /* the time of the first one, */
    uint64_t count; /* its number, */
    int64_t period; /* and how long it is from one to the next */
};

struct vblank {
    uint64_t sequence;
    int64_t time;
};

struct crtc {
    uint32_t id;           /* 0 if the place is free */
    uint32_t connector_id; /* the one that last lit it, as far as is known, or 0 */
    bool is_lit;
    bool is_sure;     /* no request can have changed what it shows since the server last said so */
    bool is_set;      /* the mode is what a program set, and not a guess */
    int64_t flip_due; /* when the flip that is now begun completes, or 0 */
    uint64_t frames;  /* how many flips and commits there were */
    struct blanking blanking;      /* while it is lit, */
    struct drm_mode_modeinfo mode; /* by this mode */
};

/* Returns what is known of a CRTC, which is nothing at first. */
struct crtc *crtc_of(uint32_t id);

/* The last vertical blanking at a time, and the one of a number; times that no clock reaches are
 * the last one that it has. */
struct vblank last_vblank(const struct blanking *blanking, int64_t now);
struct vblank vblank_of(const struct blanking *blanking, uint64_t sequence);

/* Whether one has passed at another, as the core sees it: numbers go round. */
bool has_passed(uint64_t sequence, uint64_t wanted);

/* Records what the server reported of a CRTC: whether it shows something. If it is dark, its
 * waiting events are due at once. */
void crtc_is_seen(uint32_t crtc_id, bool is_lit);

/* Notes that a program lit it in this mode, with this connector. */
void crtc_is_lit(uint32_t crtc_id, const struct drm_mode_modeinfo *mode, uint32_t connector_id);

/* Whether it shows something, as the server last said, and no request since can have darkened it.
 * A client of the server can. */
bool crtc_is_surely_lit(uint32_t crtc_id);

/* Notes that a request can have darkened any CRTC, or that the server refused to flip one. */
void crtcs_are_unsure(void);

/* Whether a flip of it is still to complete. */
bool crtc_flips(uint32_t crtc_id);

#endif
