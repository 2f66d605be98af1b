/* Building an atomic commit: objects and their properties. */
#include "commits.h"

#include "answers.h"
#include "blobs.h"
#include "crtcs.h"
#include "framebuffers.h"
#include "properties.h"

/* Asks what CRTCs show, as far as that is not sure. */
static int look_at_crtcs(struct connection *connection, const struct topology *topology)
{
    uint32_t at, fb_id;
    int failed = 0;

    for (at = 0; !failed && at < topology->count_crtcs; at++) {
        if (!crtc_of(topology->crtcs[at])->is_sure)
            failed = crtc_look(connection, topology->crtcs[at], &fb_id);
    }
    return failed;
}

/* Gives each object that the caller sees a place, which is the same before and after. */
static void place_objects(struct state *state, const struct topology *topology)
{
    uint32_t at;

    for (at = 0; at < topology->count_planes; at++)
        state_of_plane(state, &topology->planes[at]);
    for (at = 0; at < topology->count_crtcs; at++) {
        state_of_crtc(state, topology->crtcs[at]);
        state_of_primary(state, topology->crtcs[at]);
    }
    for (at = 0; at < topology->count_connectors; at++)
        state_of_connector(state, topology->connectors[at].id);
}

int commit_begin(struct commit *commit, struct connection *connection)
{
    int failed;

    commit->connection = connection;
    commit->planes = commit->crtcs = commit->connectors = 0;
    memset(&commit->fences, 0, sizeof commit->fences);
    commit->may_set_modes = commit->has_event = commit->is_late = false;
    failed = topology_find(connection, &commit->topology);
    if (!failed)
        failed = look_at_crtcs(connection, commit->topology);
    state_copy(&commit->before, state_now());
    place_objects(&commit->before, commit->topology);
    state_copy(&commit->after, &commit->before);
    return failed;
}

/* Puts a CRTC into the commit, if there is one. */
static void add_crtc(struct commit *commit, uint32_t crtc_id)
{
    uint32_t place = topology_place(commit->topology, crtc_id);

    if (place < MOST_OBJECTS)
        commit->crtcs |= (uint64_t)1 << place;
}

/* Checks a CRTC_ID: 0, or a CRTC that the caller sees. A lessee cannot find out whether another
 * one exists. */
static int find_crtc(const struct commit *commit, uint64_t value)
{
    const struct connection *connection = commit->connection;

    if (value == 0 || topology_has_crtc(commit->topology, (uint32_t)value))
        return 0;
    return connection->is_lessee ? -EACCES : -EINVAL;
}

/* What an FB_ID may be: none, or a framebuffer of any client. */
static int find_framebuffer(const struct commit *commit, uint64_t value)
{
    struct framebuffer framebuffer;
    int failed =
        value == 0 ? 0 : framebuffer_find(commit->connection, (uint32_t)value, &framebuffer);

    return failed == -ENOENT ? -EINVAL : failed;
}

static int set_of_plane(struct commit *commit, const struct seen_plane *seen, enum property_id id,
                        uint64_t value)
{
    struct plane_state *plane = state_of_plane(&commit->after, seen);
    int failed = id == FB_ID     ? find_framebuffer(commit, value)
                 : id == CRTC_ID ? find_crtc(commit, value)
                                 : 0;

    if (id == IN_FENCE_FD)
        return commit_waits_for(commit, (uint32_t)(seen - commit->topology->planes),
                                (int64_t)value);
    if (!failed)
        *plane_field(plane, id) = (uint32_t)value;
    if (id == CRTC_ID)
        add_crtc(commit, plane->crtc_id);
    return failed;
}

/* A mode is a blob of its size. The core has one errno for all that can be wrong with it. */
static int set_mode(struct crtc_state *crtc, uint32_t blob_id)
{
    struct drm_mode_modeinfo mode = {0};
    uint32_t size;
    const void *bytes = blob_bytes(blob_id, &size);

    if (blob_id != 0 && size != sizeof mode)
        return -EINVAL;
    if (blob_id != 0 && check_mode(memcpy(&mode, bytes, sizeof mode)) != 0)
        return -EINVAL;
    crtc->mode_id = blob_id;
    crtc->mode = mode;
    return 0;
}

static int set_of_crtc(struct commit *commit, uint32_t crtc_id, enum property_id id, uint64_t value)
{
    struct crtc_state *crtc = state_of_crtc(&commit->after, crtc_id);

    switch (id) {
    case ACTIVE:
        crtc->is_active = value != 0;
        return 0;
    case MODE_ID:
        return set_mode(crtc, (uint32_t)value);
    case GAMMA_LUT:
        if (!is_gamma((uint32_t)value))
            return -EINVAL;
        crtc->gamma_id = (uint32_t)value;
        return 0;
    default: /* OUT_FENCE_PTR */
        return commit_signals_at(commit, topology_place(commit->topology, crtc_id), value);
    }
}

/* The CRTC that a connector leaves is in the commit too. */
static int set_of_connector(struct commit *commit, uint32_t connector_id, enum property_id id,
                            uint64_t value)
{
    struct connector_state *connector = state_of_connector(&commit->after, connector_id);
    int failed;

    if (id != CRTC_ID) /* MODE_SETPROPERTY sets the power */
        return id == LINK_STATUS ? 0 : -EINVAL;
    failed = find_crtc(commit, value);
    if (failed)
        return failed;
    add_crtc(commit, connector->crtc_id);
    connector->crtc_id = (uint32_t)value;
    add_crtc(commit, connector->crtc_id);
    return 0;
}

int commit_add(struct commit *commit, uint32_t object_id, struct part *added)
{
    const struct topology *topology = commit->topology;
    const struct seen_plane *plane = topology_plane(topology, object_id);
    const struct seen_connector *connector = topology_connector(topology, object_id);

    *added = (struct part){object_id, DRM_MODE_OBJECT_CRTC, plane};
    if (plane != NULL) {
        added->kind = DRM_MODE_OBJECT_PLANE;
        commit->planes |= (uint64_t)1 << (plane - topology->planes);
        add_crtc(commit, state_of_plane(&commit->after, plane)->crtc_id);
    } else if (connector != NULL) {
        added->kind = DRM_MODE_OBJECT_CONNECTOR;
        commit->connectors |= (uint64_t)1 << (connector - topology->connectors);
        add_crtc(commit, state_of_connector(&commit->after, object_id)->crtc_id);
    } else if (topology_has_crtc(topology, object_id)) {
        add_crtc(commit, object_id);
    } else {
        return -ENOENT;
    }
    return 0;
}

int commit_set(struct commit *commit, const struct part *part, uint32_t property_id, uint64_t value)
{
    const struct property *property = property_find(property_id);

    if (property == NULL || !property_is_of(property_id, part->kind))
        return -ENOENT;
    if (!property_accepts(property, value))
        return -EINVAL;
    switch (part->kind) {
    case DRM_MODE_OBJECT_PLANE:
        return set_of_plane(commit, part->plane, property->id, value);
    case DRM_MODE_OBJECT_CRTC:
        return set_of_crtc(commit, part->id, property->id, value);
    default:
        return set_of_connector(commit, part->id, property->id, value);
    }
}
