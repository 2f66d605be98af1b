/* Answers to requests of cursors. If a CRTC has a cursor plane, its image is a framebuffer on it,
 * as drm_mode_cursor_universal does. Otherwise an image is taken and shown nowhere. */
#include "answers.h"

#include "crtcs.h"
#include "framebuffers.h"
#include "late_commits.h"
#include "states.h"

/* A cursor has 32 bits a pixel. */
#define PIXEL 4

/* What is known of the cursor of a CRTC */
struct cursor {
    uint32_t crtc_id;  /* 0 if the place is free */
    uint32_t plane_id; /* 0 if it has none */
    int32_t x, y;
    uint32_t fb_id; /* of the image that a request set, or 0, */
    uint64_t owner; /* and the cookie of the connection that has it */
};

static struct cursor cursors[MOST_OBJECTS];

/* A device has no more CRTCs than places. */
static struct cursor *find(uint32_t crtc_id)
{
    size_t at = 0;

    while (at < MOST_OBJECTS - 1 && cursors[at].crtc_id != crtc_id && cursors[at].crtc_id != 0)
        at++;
    return &cursors[at];
}

/* Lets a caller that doesn't list all planes use them, or no more. */
static int list_all_planes(struct connection *connection, bool all)
{
    if (connection->is_universal)
        return 0;
    connection->topology_at = 0;
    return zirkoshe_drmSetClientCap(&connection->client, DRM_CLIENT_CAP_UNIVERSAL_PLANES, all);
}

static uint32_t cursor_plane(const struct topology *topology, uint32_t crtc_id)
{
    uint32_t at = 0;

    while (at < topology->count_planes && topology->planes[at].cursor_of != crtc_id)
        at++;
    return at < topology->count_planes ? topology->planes[at].id : 0;
}

/* Finds the cursor of a CRTC that the caller sees. A lessee may not see its plane. */
static int look_for_plane(struct connection *connection, uint32_t crtc_id, struct cursor **found)
{
    const struct topology *topology;
    bool was_universal = connection->is_universal;
    int failed;

    *found = find(crtc_id);
    if ((*found)->crtc_id == crtc_id && !connection->is_lessee)
        return 0;
    failed = list_all_planes(connection, true);
    if (failed)
        return failed;
    connection->is_universal = true;
    failed = topology_find(connection, &topology);
    connection->is_universal = was_universal;
    if (!failed && (*found)->crtc_id == crtc_id && (*found)->plane_id != 0
        && topology_plane(topology, (*found)->plane_id) == NULL)
        failed = -EACCES;
    if (!failed && (*found)->crtc_id != crtc_id)
        **found = (struct cursor){.crtc_id = crtc_id, .plane_id = cursor_plane(topology, crtc_id)};
    list_all_planes(connection, false);
    return failed;
}

/* What the cursor's plane shows of a framebuffer, or of none. */
static struct plane_state plane_of(const struct cursor *cursor, uint32_t fb_id)
{
    struct framebuffer image = {0};

    framebuffer_is_known(fb_id, &image);
    return (struct plane_state){.key = cursor->plane_id,
                                .crtc_id = fb_id != 0 ? cursor->crtc_id : 0,
                                .fb_id = fb_id,
                                .crtc_x = fb_id != 0 ? (uint32_t)cursor->x : 0,
                                .crtc_y = fb_id != 0 ? (uint32_t)cursor->y : 0,
                                .crtc_w = image.width,
                                .crtc_h = image.height,
                                .src_w = image.width << 16,
                                .src_h = image.height << 16};
}

static int add_image(struct connection *connection, const struct drm_mode_cursor *asked,
                     uint32_t *fb_id)
{
    struct framebuffer image = {.width = asked->width,
                                .height = asked->height,
                                .format = DRM_FORMAT_ARGB8888,
                                .pitch = asked->width * PIXEL};
    int failed;

    *fb_id = 0;
    if (asked->handle == 0)
        return 0;
    failed = zirkoshe_drmModeAddFB(&connection->client, asked->width, asked->height,
                                   asked->width * PIXEL, 8 * PIXEL, asked->handle, fb_id);
    if (failed)
        return failed;
    framebuffer_is_added(connection, *fb_id, &image, asked->handle);
    framebuffer_has_cursor(*fb_id);
    return 0;
}

/* Removes an image that the connection has. The closing of another one removes its own. */
static void remove_image(struct connection *connection, uint32_t fb_id, uint64_t owner)
{
    if (fb_id == 0 || owner != connection->cookie)
        return;
    zirkoshe_drmModeRmFB(&connection->client, fb_id);
    framebuffer_is_removed(fb_id);
}

static int show_plane(struct connection *connection, const struct plane_state *plane,
                      uint32_t crtc_id)
{
    int failed = list_all_planes(connection, true);

    if (failed)
        return failed;
    failed = zirkoshe_drmModeSetPlane(&connection->client, plane->key, crtc_id, plane->fb_id);
    list_all_planes(connection, false);
    return failed;
}

/* Shows another image, or none, and removes the one before. */
static int set_image(struct connection *connection, struct cursor *cursor,
                     const struct drm_mode_cursor *asked)
{
    struct cursor before = *cursor;
    struct plane_state plane;
    uint32_t fb_id;
    int failed = add_image(connection, asked, &fb_id);

    if (failed)
        return failed;
    plane = plane_of(cursor, fb_id);
    failed = plane_overflows(&plane) ? -ERANGE : show_plane(connection, &plane, cursor->crtc_id);
    if (failed) {
        remove_image(connection, fb_id, connection->cookie);
        return failed;
    }
    cursor->fb_id = fb_id;
    cursor->owner = connection->cookie;
    state_plane_is_set(&plane);
    remove_image(connection, before.fb_id, before.owner);
    return 0;
}

/* A cursor that moves shows what its plane showed before, and costs no call of the server. */
static int move(struct cursor *cursor)
{
    const struct seen_plane seen = {.id = cursor->plane_id};
    struct plane_state *plane = state_of_plane(state_now(), &seen), moved = *plane;

    moved.crtc_x = (uint32_t)cursor->x;
    moved.crtc_y = (uint32_t)cursor->y;
    if (plane->fb_id == 0)
        return 0;
    if (plane_overflows(&moved))
        return -ERANGE;
    *plane = moved;
    return 0;
}

static int change_cursor(struct connection *connection, struct cursor *cursor,
                         const struct drm_mode_cursor *asked)
{
    struct cursor before = *cursor;
    int failed;

    if (late_commit_of_crtc(cursor->crtc_id) != NULL)
        return wait_and_ask_again(late_commit_of_crtc(cursor->crtc_id));
    if (asked->flags & DRM_MODE_CURSOR_MOVE) {
        cursor->x = asked->x;
        cursor->y = asked->y;
    }
    failed =
        asked->flags & DRM_MODE_CURSOR_BO ? set_image(connection, cursor, asked) : move(cursor);
    if (failed)
        *cursor = before;
    return failed;
}

/* Whether a picture may be a cursor's: whether the caller holds the handle shows in the reading of
 * its stamp. */
static int look_at_picture(struct zirkoshe_client *client, const struct drm_mode_cursor *cursor)
{
    uint64_t stamp;
    int failed = zirkoshe_stamp_read(client, cursor->handle, &stamp);

    if (failed)
        return failed;
    return cursor->width > MOST_CURSOR_SIDE || cursor->height > MOST_CURSOR_SIDE ? -EINVAL : 0;
}

/* Whether a current caller sees a CRTC, which the server is asked once. */
static int see_crtc(struct connection *connection, uint32_t crtc_id)
{
    uint32_t fb_id;
    int failed;

    if (crtc_id != 0 && connection_is_current(connection) && connection->known_crtc == crtc_id)
        return 0;
    failed = zirkoshe_drmModeGetCrtc(&connection->client, crtc_id, &fb_id);
    if (!failed)
        connection->known_crtc = crtc_id;
    return failed;
}

/* The older struct of a cursor begins as the newer one does, whose hot spot no plane has. A handle
 * of 0 hides the cursor. */
int answer_cursor(struct connection *connection, void *argument)
{
    const struct drm_mode_cursor *asked = argument;
    struct cursor *cursor;
    int failed;

    if (asked->flags == 0 || (asked->flags & ~(uint32_t)DRM_MODE_CURSOR_FLAGS) != 0)
        return -EINVAL;
    failed = see_crtc(connection, asked->crtc_id);
    if (!failed)
        failed = look_for_plane(connection, asked->crtc_id, &cursor);
    if (failed)
        return failed;
    if (cursor->plane_id != 0)
        return change_cursor(connection, cursor, asked);
    return (asked->flags & DRM_MODE_CURSOR_BO) && asked->handle != 0
               ? look_at_picture(&connection->client, asked)
               : 0;
}
