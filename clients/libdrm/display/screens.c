/* What each CRTC shows. */
#include "screens.h"

#include "answers.h"
#include "connections.h"
#include "crtcs.h"

/* Becomes a client that sees all objects, and is master of nothing. */
static int look_at_all(struct connection *own, struct topology *all)
{
    const struct topology *found;
    int failed = connection_hold(own);

    if (failed)
        return failed;
    /* the first client of a device is its master; any other one is denied this */
    zirkoshe_drmDropMaster(&own->client);
    failed = zirkoshe_drmSetClientCap(&own->client, DRM_CLIENT_CAP_UNIVERSAL_PLANES, 1);
    own->is_universal = true;
    if (!failed)
        failed = topology_find(own, &found);
    if (!failed)
        *all = *found;
    return connection_let_go(own, failed);
}

int screens_topology(const struct topology **topology)
{
    static struct topology all;
    static bool is_known;
    enum node node = node_path(NODE_ROOT) != NULL ? NODE_ROOT : NODE_CARD;
    struct connection *own;
    int failed;

    *topology = &all;
    if (is_known)
        return 0;
    failed = connection_open(node, false, 0, getpid(), &own);
    if (failed)
        return failed;
    failed = look_at_all(own, &all);
    connection_close(own);
    is_known = failed == 0;
    return failed;
}

static enum plane_kind kind_of(const struct seen_plane *plane, uint32_t crtc_id)
{
    if (plane->primary_of == crtc_id)
        return PLANE_PRIMARY;
    return plane->cursor_of == crtc_id ? PLANE_CURSOR : PLANE_OVERLAY;
}

/* Adds a plane that shows something on the CRTC. */
static void add(struct screen *screen, const struct seen_plane *plane, enum plane_kind kind)
{
    const struct plane_state *state = state_of_plane(state_now(), plane);
    struct shown_plane *added = &screen->planes[screen->count];

    if (state->fb_id == 0 || state->crtc_id != screen->crtc_id)
        return;
    *added = (struct shown_plane){.id = plane->id, .kind = kind, .state = *state};
    framebuffer_is_known(state->fb_id, &added->framebuffer);
    screen->count++;
}

/* Adds the planes of a kind. The topology has them by their ids. A primary plane that MODE_SETPLANE
 * showed is to the server another one than that of MODE_SETCRTC. */
static void add_kind(struct screen *screen, const struct topology *topology, enum plane_kind kind)
{
    uint32_t at;

    for (at = 0; at < topology->count_planes; at++) {
        const struct seen_plane *plane = &topology->planes[at];

        if (kind_of(plane, screen->crtc_id) == kind)
            add(screen, plane, kind);
        if (plane->primary_of != 0 && kind == PLANE_OVERLAY)
            add(screen, &(struct seen_plane){.id = plane->id}, kind);
    }
}

void screen_find(const struct topology *topology, uint32_t crtc_id, struct screen *screen)
{
    const struct crtc_state *crtc = state_of_crtc(state_now(), crtc_id);
    unsigned count_connectors;
    uint32_t count_modes;

    screen->crtc_id = crtc_id;
    screen->connector_id = state_connector(state_now(), crtc_id, &count_connectors);
    screen->is_active = crtc->is_active;
    screen->mode = crtc->mode_id != 0 ? crtc->mode : all_modes(&count_modes)[0];
    screen->frames = crtc_of(crtc_id)->frames;
    screen->count = 0;
    if (!crtc->is_active)
        return;
    add_kind(screen, topology, PLANE_PRIMARY);
    add_kind(screen, topology, PLANE_OVERLAY);
    add_kind(screen, topology, PLANE_CURSOR);
}
