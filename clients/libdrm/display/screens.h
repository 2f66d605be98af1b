/* What each CRTC shows: the mode, and the planes in the order in which they are drawn. */
#ifndef ZIRKOSHE_LIBDRM_SCREENS_H
#define ZIRKOSHE_LIBDRM_SCREENS_H

#include "framebuffers.h"
#include "states.h"

enum plane_kind { PLANE_PRIMARY, PLANE_OVERLAY, PLANE_CURSOR };

struct shown_plane {
    uint32_t id;
    enum plane_kind kind;
    struct plane_state state;
    struct framebuffer framebuffer; /* all 0 if a client of the server added it */
};

struct screen {
    uint32_t crtc_id;
    uint32_t connector_id; /* the first one that it drives, or 0 */
    bool is_active;
    struct drm_mode_modeinfo mode; /* the preferred one if it has none */
    uint64_t frames;
    uint32_t count; /* of planes */
    struct shown_plane planes[2 * MOST_OBJECTS];
};

/* Finds the mode objects of the device. The first call asks the server, by a client of the
 * display's own. Returns 0, or a negative errno. The caller has a turn that may change something.
 */
int screens_topology(const struct topology **topology);

/* Finds what a CRTC of the device shows now. */
void screen_find(const struct topology *topology, uint32_t crtc_id, struct screen *screen);

#endif
