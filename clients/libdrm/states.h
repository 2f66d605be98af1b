/* What is shown: the state of planes, CRTCs and connectors, as atomic commits and the older calls
 * left it.
 *
 * The server keeps the framebuffers alone. A primary plane's state is found by its CRTC, since the
 * older calls do not name the plane.
 */
#ifndef ZIRKOSHE_LIBDRM_STATES_H
#define ZIRKOSHE_LIBDRM_STATES_H

#include "topologies.h"

#include <drm_mode.h>

/* Sources are in 16.16 fixed point, and positions on the CRTC are signed. */
struct plane_state {
    uint32_t key;
    uint32_t crtc_id, fb_id;
    uint32_t crtc_x, crtc_y, crtc_w, crtc_h;
    uint32_t src_x, src_y, src_w, src_h;
};

struct crtc_state {
    uint32_t id;
    bool is_active;
    uint32_t mode_id;  /* a blob, or 0 for no mode */
    uint32_t gamma_id; /* likewise, of entries of gamma */
    struct drm_mode_modeinfo mode;
};

struct connector_state {
    uint32_t id;
    uint32_t crtc_id;
};

struct state {
    uint32_t count_planes, count_crtcs, count_connectors;
    struct plane_state planes[MOST_OBJECTS];
    struct crtc_state crtcs[MOST_OBJECTS];
    struct connector_state connectors[MOST_OBJECTS];
};

/* Return the state of an object, which is created if it is missing. */
struct plane_state *state_of_plane(struct state *state, const struct seen_plane *plane);
struct plane_state *state_of_primary(struct state *state, uint32_t crtc_id);
struct crtc_state *state_of_crtc(struct state *state, uint32_t crtc_id);
struct connector_state *state_of_connector(struct state *state, uint32_t connector_id);

/* Returns whether the end of a plane on its CRTC is above what a signed number has. */
bool plane_overflows(const struct plane_state *plane);

/* Returns the connector of a CRTC, or 0, and how many it has in `count`. */
uint32_t state_connector(const struct state *state, uint32_t crtc_id, unsigned *count);

/* Returns the state now. Copies one, but not its free places. Changes what differs between two. */
struct state *state_now(void);
void state_copy(struct state *to, const struct state *from);
void state_change(const struct state *before, const struct state *after);

/* Asks the server what a CRTC shows, and notes it; 0, or a negative errno. */
int crtc_look(struct connection *connection, uint32_t crtc_id, uint32_t *fb_id);

/* Notes what the older calls changed: a MODE_SETCRTC or a flip, a gamma table, a MODE_SETPLANE, and
 * that a framebuffer is removed. */
void state_crtc_is_set(uint32_t crtc_id, uint32_t connector_id, const struct plane_state *primary,
                       const struct drm_mode_modeinfo *mode);
void state_crtc_flips(uint32_t crtc_id, uint32_t fb_id);
void state_gamma_is_set(uint32_t crtc_id, uint32_t blob_id);
void state_plane_is_set(const struct plane_state *plane);
void state_fb_is_removed(uint32_t fb_id);

#endif
