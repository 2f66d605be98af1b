/* Which CRTC drives what now. */
#include "routes.h"

#include "states.h"

#include <errno.h>

/* What a CRTC shows, of those that the caller sees: 0 for another one. */
static int find_shown(struct connection *connection, uint32_t crtc_id, uint32_t *fb_id)
{
    int failed = crtc_look(connection, crtc_id, fb_id);

    if (failed)
        *fb_id = 0;
    return failed == -ENOENT ? 0 : failed;
}

/* Whether a connector is the only one that a CRTC can drive. */
static bool is_only_connector(const struct topology *topology, uint32_t connector_id,
                              uint32_t crtc_id)
{
    uint32_t at, found = 0, count = 0;

    for (at = 0; at < topology->count_connectors; at++) {
        const struct seen_connector *seen = &topology->connectors[at];

        if (topology_may_drive(topology, seen->possible_crtcs, crtc_id)) {
            found = seen->id;
            count++;
        }
    }
    return count == 1 && found == connector_id;
}

/* The CRTC that shows something and can do so on this connector alone. */
static int find_by_topology(struct connection *connection, const struct topology *topology,
                            uint32_t connector_id, uint32_t *crtc_id)
{
    uint32_t at, fb_id = 0;
    int failed = 0;

    *crtc_id = 0;
    for (at = 0; !failed && fb_id == 0 && at < topology->count_crtcs; at++) {
        if (!is_only_connector(topology, connector_id, topology->crtcs[at]))
            continue;
        failed = find_shown(connection, topology->crtcs[at], &fb_id);
        if (fb_id != 0)
            *crtc_id = topology->crtcs[at];
    }
    return failed;
}

/* Whether a CRTC that a program lit shows something yet: a client of the server can have darkened
 * it. One that was set to be inactive drives its connector all the same. */
static int is_kept(struct connection *connection, const struct topology *topology, uint32_t crtc_id,
                   bool *kept)
{
    uint32_t fb_id = 0;
    int failed = 0;

    *kept = true;
    if (state_of_crtc(state_now(), crtc_id)->is_active && topology_has_crtc(topology, crtc_id)) {
        failed = find_shown(connection, crtc_id, &fb_id);
        *kept = fb_id != 0;
    }
    return failed;
}

int route_of_connector(struct connection *connection, uint32_t connector_id, uint32_t *crtc_id)
{
    const struct topology *topology;
    bool kept;
    int failed = topology_find(connection, &topology);

    *crtc_id = 0;
    if (failed)
        return failed;
    *crtc_id = state_of_connector(state_now(), connector_id)->crtc_id;
    if (*crtc_id == 0)
        return find_by_topology(connection, topology, connector_id, crtc_id);
    failed = is_kept(connection, topology, *crtc_id, &kept);
    if (!failed && !kept)
        *crtc_id = 0;
    return failed;
}

int route_of_encoder(struct connection *connection, uint32_t encoder_id, uint32_t *crtc_id)
{
    const struct topology *topology;
    uint32_t at, found = 0;
    int failed = topology_find(connection, &topology);

    *crtc_id = 0;
    for (at = 0; !failed && found == 0 && at < topology->count_connectors; at++) {
        if (topology->connectors[at].encoder_id == encoder_id)
            failed = route_of_connector(connection, topology->connectors[at].id, &found);
    }
    if (!failed && topology_has_crtc(topology, found))
        *crtc_id = found;
    return failed;
}

/* The CRTC of a plane that shows something: the one that a program set, or the only one that it can
 * be shown on. */
static uint32_t crtc_of_plane(const struct topology *topology, const struct seen_plane *seen,
                              uint32_t fb_id)
{
    const struct plane_state *plane = state_of_plane(state_now(), seen);
    uint32_t at, found = 0, count = 0;

    if (plane->fb_id == fb_id && topology_has_crtc(topology, plane->crtc_id))
        return plane->crtc_id;
    for (at = 0; at < topology->count_crtcs; at++) {
        if (topology_may_drive(topology, seen->possible_crtcs, topology->crtcs[at])) {
            found = topology->crtcs[at];
            count++;
        }
    }
    return count == 1 ? found : 0;
}

int route_of_plane(struct connection *connection, uint32_t plane_id, struct zirkoshe_plane *plane,
                   uint32_t *crtc_id)
{
    const struct topology *topology;
    const struct seen_plane *seen;
    int failed = topology_find(connection, &topology);

    *crtc_id = 0;
    seen = failed ? NULL : topology_plane(topology, plane_id);
    if (seen == NULL)
        return failed;
    if (plane->fb_id != 0) {
        *crtc_id = crtc_of_plane(topology, seen, plane->fb_id);
    } else if (seen->primary_of != 0) {
        failed = find_shown(connection, seen->primary_of, &plane->fb_id);
        *crtc_id = plane->fb_id != 0 ? seen->primary_of : 0;
    }
    return failed;
}
