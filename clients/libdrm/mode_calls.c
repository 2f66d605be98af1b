/* Answers to requests for mode objects and for what they show. */
#include "answers.h"

#include "connectors.h"
#include "crtcs.h"
#include "framebuffers.h"
#include "late_commits.h"
#include "routes.h"
#include "states.h"

/* The server's sizes of framebuffers */
#define LEAST_SIDE 1
#define MOST_SIDE 65535
/* The core's limit for the position of a CRTC in its framebuffer */
#define MOST_CORNER 0xFFFFu

/* As in the core, the images of cursors are in no list. */
static void leave_out_cursors(struct zirkoshe_resources *found)
{
    uint32_t at, count = 0;

    for (at = 0; at < found->count_fbs; at++) {
        if (!framebuffer_is_of_cursor(found->fbs[at]))
            found->fbs[count++] = found->fbs[at];
    }
    found->count_fbs = count;
}

/* Returns one of the lists of resources. */
#define GIVE_IDS(kind, kinds)                                                                      \
    give(resources->kind##_id_ptr, &resources->count_##kinds, found.kinds, found.count_##kinds,    \
         sizeof *found.kinds)

int answer_get_resources(struct connection *connection, void *argument)
{
    struct drm_mode_card_res *resources = argument;
    struct zirkoshe_resources found;
    int failed = zirkoshe_drmModeGetResources(&connection->client, &found);

    if (failed)
        return failed;
    resources->min_width = resources->min_height = LEAST_SIDE;
    resources->max_width = resources->max_height = MOST_SIDE;
    leave_out_cursors(&found);
    failed = GIVE_IDS(fb, fbs);
    if (!failed)
        failed = GIVE_IDS(crtc, crtcs);
    if (!failed)
        failed = GIVE_IDS(connector, connectors);
    return failed ? failed : GIVE_IDS(encoder, encoders);
}

/* If the CRTC shows something, reports the position and the mode that a program set, or else 0, 0
 * and the preferred mode. */
int answer_get_crtc(struct connection *connection, void *argument)
{
    struct drm_mode_crtc *crtc = argument;
    const struct plane_state *primary;
    uint32_t fb_id;
    int failed = crtc_look(connection, crtc->crtc_id, &fb_id);

    if (failed)
        return failed;
    primary = state_of_primary(state_now(), crtc->crtc_id);
    crtc->fb_id = fb_id;
    crtc->x = fb_id != 0 ? primary->src_x >> 16 : 0;
    crtc->y = fb_id != 0 ? primary->src_y >> 16 : 0;
    crtc->gamma_size = GAMMA_SIZE;
    crtc->mode_valid = fb_id != 0;
    memset(&crtc->mode, 0, sizeof crtc->mode);
    if (crtc->mode_valid)
        crtc->mode = crtc_of(crtc->crtc_id)->mode;
    if (!connection->has_aspect_ratios)
        crtc->mode.flags &= ~(uint32_t)DRM_MODE_FLAG_PIC_AR_MASK;
    return 0;
}

/* Refuses as the core does before it calls the driver: its tests of the caller and the CRTC are
 * earlier. */
static int refuse(struct zirkoshe_client *client, uint32_t crtc_id, int error)
{
    uint32_t fb_id;
    int failed = refuse_current(client, 0);

    if (!failed)
        failed = zirkoshe_drmModeGetCrtc(client, crtc_id, &fb_id);
    return failed ? failed : error;
}

/* Finds the framebuffer of a request. -1 is the one that the CRTC shows. A mode requires one. */
static int find_fb(struct zirkoshe_client *client, const struct drm_mode_crtc *crtc,
                   uint32_t *fb_id)
{
    int failed = 0;

    *fb_id = crtc->mode_valid ? crtc->fb_id : 0;
    if (*fb_id == UINT32_MAX) {
        failed = zirkoshe_drmModeGetCrtc(client, crtc->crtc_id, fb_id);
        if (!failed && *fb_id == 0)
            failed = refuse(client, crtc->crtc_id, -EINVAL);
    } else if (crtc->mode_valid && *fb_id == 0) {
        failed = refuse(client, crtc->crtc_id, -ENOENT);
    }
    return failed;
}

/* Checks the mode, and its position in the framebuffer, as the core does. If the framebuffer does
 * not exist, the server refuses the request. */
static int check_view(struct connection *connection, const struct drm_mode_crtc *crtc,
                      uint32_t fb_id)
{
    struct framebuffer shown;
    int failed;

    if (fb_id == 0 || framebuffer_find(connection, fb_id, &shown) != 0)
        return 0;
    if (!connection->has_aspect_ratios && (crtc->mode.flags & DRM_MODE_FLAG_PIC_AR_MASK))
        return -EINVAL;
    failed = check_mode(&crtc->mode);
    if (failed)
        return failed;
    return framebuffer_contains(&shown, crtc->x, crtc->y, crtc->mode.hdisplay, crtc->mode.vdisplay)
               ? 0
               : -ENOSPC;
}

/* Records what a CRTC shows. Its primary plane covers it. */
static void note_crtc(const struct drm_mode_crtc *crtc, uint32_t fb_id, uint32_t connector_id)
{
    uint32_t width = crtc->mode.hdisplay, height = crtc->mode.vdisplay;
    const struct plane_state primary = {
        .crtc_id = crtc->crtc_id,
        .fb_id = fb_id,
        .crtc_w = width,
        .crtc_h = height,
        .src_x = crtc->x << 16,
        .src_y = crtc->y << 16,
        .src_w = width << 16,
        .src_h = height << 16,
    };

    state_crtc_is_set(crtc->crtc_id, connector_id, fb_id != 0 ? &primary : NULL, &crtc->mode);
    if (fb_id != 0)
        crtc_is_lit(crtc->crtc_id, &crtc->mode, connector_id);
    else
        crtc_is_seen(crtc->crtc_id, false);
}

/* The server accepts at most one connector, and has no mode and no position, which are kept here.
 */
int answer_set_crtc(struct connection *connection, void *argument)
{
    const struct drm_mode_crtc *crtc = argument;
    struct zirkoshe_client *client = &connection->client;
    uint32_t connector_id = 0, fb_id;
    int failed;

    if (crtc->x > MOST_CORNER || crtc->y > MOST_CORNER)
        return refuse_current(client, -ERANGE);
    failed = find_fb(client, crtc, &fb_id);
    if (failed)
        return failed;
    failed = check_view(connection, crtc, fb_id);
    if (failed)
        return refuse(client, crtc->crtc_id, failed);
    if (crtc->count_connectors > 1)
        return refuse(client, crtc->crtc_id, -EINVAL);
    if (crtc->count_connectors == 1)
        failed = copy_from_caller(&connector_id, crtc->set_connectors_ptr, sizeof connector_id);
    if (failed)
        return failed;
    if (late_commit_of_crtc(crtc->crtc_id) != NULL)
        return wait_and_ask_again(late_commit_of_crtc(crtc->crtc_id));
    failed = zirkoshe_drmModeSetCrtc(client, crtc->crtc_id, fb_id, connector_id);
    if (!failed)
        note_crtc(crtc, fb_id, connector_id);
    return failed;
}

int answer_get_encoder(struct connection *connection, void *argument)
{
    struct drm_mode_get_encoder *encoder = argument;
    uint32_t possible_crtcs, crtc_id;
    int failed =
        zirkoshe_drmModeGetEncoder(&connection->client, encoder->encoder_id, &possible_crtcs);

    if (!failed)
        failed = route_of_encoder(connection, encoder->encoder_id, &crtc_id);
    if (failed)
        return failed;
    encoder->encoder_type = DRM_MODE_ENCODER_VIRTUAL;
    encoder->crtc_id = crtc_id;
    encoder->possible_crtcs = possible_crtcs;
    encoder->possible_clones = 0;
    return 0;
}

/* Reports a monitor of 96 dots per inch, if there is one. The name of the connector is its id. */
static void describe(struct drm_mode_get_connector *connector)
{
    bool is_plugged = connector_is_plugged(connector->connector_id);

    connector->connector_type = DRM_MODE_CONNECTOR_VIRTUAL;
    connector->connector_type_id = connector->connector_id;
    connector->connection = is_plugged ? 1 : 2;
    connector->mm_width = is_plugged ? 508 : 0;
    connector->mm_height = is_plugged ? 286 : 0;
    connector->subpixel = 0;
}

int answer_get_connector(struct connection *connection, void *argument)
{
    struct drm_mode_get_connector *connector = argument;
    const struct drm_mode_modeinfo *modes;
    uint32_t encoder_id, crtc_id, count;
    int failed =
        zirkoshe_drmModeGetConnector(&connection->client, connector->connector_id, &encoder_id);

    if (!failed)
        failed = route_of_connector(connection, connector->connector_id, &crtc_id);
    if (failed)
        return failed;
    describe(connector);
    connector->encoder_id = crtc_id != 0 ? encoder_id : 0;
    modes = all_modes(&count);
    if (!connector_is_plugged(connector->connector_id))
        count = 0;
    /* the core returns all modes, or none */
    if (connector->count_modes < count)
        connector->count_modes = 0;
    failed = give(connector->modes_ptr, &connector->count_modes, modes, count, sizeof *modes);
    if (!failed)
        failed = give(connector->encoders_ptr, &connector->count_encoders, &encoder_id, 1,
                      sizeof encoder_id);
    if (!failed)
        failed = give_connector_properties(connection, connector);
    return failed;
}

int answer_get_plane_resources(struct connection *connection, void *argument)
{
    struct drm_mode_get_plane_res *resources = argument;
    struct zirkoshe_ids planes;
    int failed = zirkoshe_drmModeGetPlaneResources(&connection->client, &planes);

    if (failed)
        return failed;
    return give(resources->plane_id_ptr, &resources->count_planes, planes.ids, planes.count,
                sizeof planes.ids[0]);
}

int answer_get_plane(struct connection *connection, void *argument)
{
    struct drm_mode_get_plane *plane = argument;
    struct zirkoshe_plane found;
    const uint32_t *formats;
    uint32_t crtc_id, count;
    int failed = zirkoshe_drmModeGetPlane(&connection->client, plane->plane_id, &found);

    if (!failed)
        failed = route_of_plane(connection, plane->plane_id, &found, &crtc_id);
    if (failed)
        return failed;
    plane->crtc_id = crtc_id;
    plane->fb_id = found.fb_id;
    plane->possible_crtcs = found.possible_crtcs;
    plane->gamma_size = 0;
    formats = all_formats(&count);
    return give(plane->format_type_ptr, &plane->count_format_types, formats, count,
                sizeof *formats);
}

/* Refuses as the core does by the position or the source of a plane, which it checks last. */
static int refuse_plane(struct connection *connection, const struct drm_mode_set_plane *plane,
                        int error)
{
    const struct topology *topology;
    const struct seen_plane *seen;
    int failed = refuse_current(&connection->client, 0);

    if (!failed)
        failed = topology_find(connection, &topology);
    if (failed)
        return failed;
    seen = topology_plane(topology, plane->plane_id);
    if (seen == NULL || !topology_has_crtc(topology, plane->crtc_id))
        return -ENOENT;
    return topology_may_drive(topology, seen->possible_crtcs, plane->crtc_id) ? error : -EINVAL;
}

/* Checks the position and the source of a plane, as __setplane_check does. If the framebuffer does
 * not exist, the server refuses the request. */
static int check_place(struct connection *connection, const struct plane_state *plane)
{
    struct framebuffer framebuffer;

    if (plane->fb_id == 0 || framebuffer_find(connection, plane->fb_id, &framebuffer) != 0)
        return 0;
    if (plane_overflows(plane))
        return -ERANGE;
    return framebuffer_contains_source(&framebuffer, plane->src_x, plane->src_y, plane->src_w,
                                       plane->src_h)
               ? 0
               : -ENOSPC;
}

/* The server does not store the position on the CRTC. */
int answer_set_plane(struct connection *connection, void *argument)
{
    const struct drm_mode_set_plane *plane = argument;
    const struct plane_state state = {
        .key = plane->plane_id,
        .crtc_id = plane->fb_id != 0 ? plane->crtc_id : 0,
        .fb_id = plane->fb_id,
        .crtc_x = (uint32_t)plane->crtc_x,
        .crtc_y = (uint32_t)plane->crtc_y,
        .crtc_w = plane->crtc_w,
        .crtc_h = plane->crtc_h,
        .src_x = plane->src_x,
        .src_y = plane->src_y,
        .src_w = plane->src_w,
        .src_h = plane->src_h,
    };
    int failed = check_place(connection, &state);

    if (failed)
        return refuse_plane(connection, plane, failed);
    if (late_commit_of_crtc(plane->crtc_id) != NULL)
        return wait_and_ask_again(late_commit_of_crtc(plane->crtc_id));
    failed = zirkoshe_drmModeSetPlane(&connection->client, plane->plane_id, plane->crtc_id,
                                      plane->fb_id);
    if (!failed)
        state_plane_is_set(&state);
    return failed;
}
