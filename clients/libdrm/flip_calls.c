/* Answers to page flips, which are made of SETCRTC. */
#include "answers.h"

#include "crtcs.h"
#include "framebuffers.h"
#include "states.h"

/* What is wrong with another framebuffer on a CRTC that a program set: what is shown must be in it,
 * and the format must stay. */
static int refuse_framebuffer(uint32_t crtc_id, const struct framebuffer *framebuffer)
{
    const struct plane_state *primary = state_of_primary(state_now(), crtc_id);
    struct framebuffer shown = {0};

    if (!crtc_of(crtc_id)->is_set)
        return 0;
    if (!framebuffer_contains_source(framebuffer, primary->src_x, primary->src_y, primary->src_w,
                                     primary->src_h))
        return -ENOSPC;
    framebuffer_is_known(primary->fb_id, &shown);
    return shown.format != 0 && framebuffer->format != 0 && shown.format != framebuffer->format
               ? -EINVAL
               : 0;
}

/* The same, once the framebuffer is found. */
static int refuse_shown(struct connection *connection,
                        const struct drm_mode_crtc_page_flip_target *flip)
{
    struct framebuffer framebuffer;
    int failed =
        flip->fb_id == 0 ? -ENOENT : framebuffer_find(connection, flip->fb_id, &framebuffer);

    return failed ? failed : refuse_framebuffer(flip->crtc_id, &framebuffer);
}

/* Refuses as the core and the driver do. If this refuses nothing, the server refuses a caller
 * that is not current. */
static int refuse_flip(struct connection *connection,
                       const struct drm_mode_crtc_page_flip_target *flip)
{
    bool has_target = (flip->flags & DRM_MODE_PAGE_FLIP_TARGET) != 0;
    uint32_t fb_id;
    int failed;

    if ((flip->flags & ~(uint32_t)DRM_MODE_PAGE_FLIP_FLAGS)
        || (flip->flags & DRM_MODE_PAGE_FLIP_ASYNC)
        || (flip->flags & DRM_MODE_PAGE_FLIP_TARGET) == DRM_MODE_PAGE_FLIP_TARGET
        || (flip->sequence != 0 && !has_target))
        return -EINVAL;
    failed = crtc_look(connection, flip->crtc_id, &fb_id);
    if (failed)
        return failed;
    if (has_target)
        return -EINVAL;
    if (fb_id == 0)
        return -EBUSY;
    failed = refuse_shown(connection, flip);
    if (failed)
        return failed;
    if ((flip->flags & DRM_MODE_PAGE_FLIP_EVENT) && !events_have_room(&connection->events, 1))
        return -ENOMEM;
    return crtc_flips(flip->crtc_id) ? -EBUSY : 0;
}

/* Finds the connector that last lit the CRTC, if that is known, or else the first one that it can
 * drive, or 0. */
static int find_connector(struct connection *connection, uint32_t crtc_id, uint32_t *connector_id)
{
    const struct topology *topology;
    uint32_t at;
    int failed = 0;

    *connector_id = crtc_of(crtc_id)->connector_id;
    if (*connector_id == 0)
        failed = topology_find(connection, &topology);
    for (at = 0; !failed && *connector_id == 0 && at < topology->count_connectors; at++) {
        if (topology_may_drive(topology, topology->connectors[at].possible_crtcs, crtc_id))
            *connector_id = topology->connectors[at].id;
    }
    if (*connector_id != 0)
        crtc_of(crtc_id)->connector_id = *connector_id;
    return failed;
}

int64_t complete_flip(struct connection *connection, uint32_t crtc_id, bool has_event,
                      uint64_t user_data)
{
    struct blanking blanking = crtc_of(crtc_id)->blanking;
    struct vblank vblank = {blanking.count, time_now()};

    crtc_of(crtc_id)->frames++;
    if (crtc_is_surely_lit(crtc_id)) {
        vblank = vblank_of(&blanking, last_vblank(&blanking, vblank.time).sequence + 1);
        crtc_of(crtc_id)->flip_due = vblank.time;
    }
    if (has_event)
        events_add(&connection->events, crtc_id, DRM_EVENT_FLIP_COMPLETE, user_data,
                   vblank.sequence, vblank.time);
    return vblank.time;
}

static void complete(struct connection *connection,
                     const struct drm_mode_crtc_page_flip_target *flip)
{
    state_crtc_flips(flip->crtc_id, flip->fb_id);
    complete_flip(connection, flip->crtc_id, (flip->flags & DRM_MODE_PAGE_FLIP_EVENT) != 0,
                  flip->user_data);
}

/* Whether a flip is refused by nothing that is known: then SETCRTC alone decides. */
static bool is_expected_to_flip(struct connection *connection,
                                const struct drm_mode_crtc_page_flip_target *flip)
{
    struct framebuffer framebuffer;

    return (flip->flags & ~(uint32_t)DRM_MODE_PAGE_FLIP_EVENT) == 0 && flip->sequence == 0
           && framebuffer_is_known(flip->fb_id, &framebuffer)
           && refuse_framebuffer(flip->crtc_id, &framebuffer) == 0
           && crtc_is_surely_lit(flip->crtc_id) && crtc_of(flip->crtc_id)->connector_id != 0
           && !crtc_flips(flip->crtc_id)
           && (!(flip->flags & DRM_MODE_PAGE_FLIP_EVENT)
               || events_have_room(&connection->events, 1));
}

int answer_page_flip(struct connection *connection, void *argument)
{
    const struct drm_mode_crtc_page_flip_target *flip = argument;
    struct zirkoshe_client *client = &connection->client;
    uint32_t connector_id;
    int failed;

    if (is_expected_to_flip(connection, flip)) {
        if (zirkoshe_drmModeSetCrtc(client, flip->crtc_id, flip->fb_id,
                                    crtc_of(flip->crtc_id)->connector_id)
            == 0) {
            complete(connection, flip);
            return 0;
        }
        crtcs_are_unsure();
    }
    failed = refuse_flip(connection, flip);
    if (failed)
        return refuse_current(client, failed);
    failed = find_connector(connection, flip->crtc_id, &connector_id);
    if (!failed)
        failed = zirkoshe_drmModeSetCrtc(client, flip->crtc_id, flip->fb_id, connector_id);
    if (!failed)
        complete(connection, flip);
    return failed;
}
