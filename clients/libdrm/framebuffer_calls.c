/* Answers to requests of framebuffers. */
#include "answers.h"

#include "crtcs.h"
#include "framebuffers.h"
#include "states.h"

int answer_add_fb(struct connection *connection, void *argument)
{
    struct drm_mode_fb_cmd *fb = argument;
    struct framebuffer added = {.width = fb->width,
                                .height = fb->height,
                                .format = format_of_depth(fb->bpp, fb->depth),
                                .pitch = fb->pitch};
    int failed = zirkoshe_drmModeAddFB(&connection->client, fb->width, fb->height, fb->pitch,
                                       fb->bpp, fb->handle, &fb->fb_id);

    if (!failed)
        framebuffer_is_added(connection, fb->fb_id, &added, fb->handle);
    return failed;
}

/* Returns whether the three planes that no format here has are unused, as framebuffer_check
 * requires. Without DRM_MODE_FB_MODIFIERS, the core ignores all but the modifiers. */
static bool has_unused_planes(const struct drm_mode_fb_cmd2 *fb)
{
    bool may_be_set = !(fb->flags & DRM_MODE_FB_MODIFIERS);
    size_t at;

    for (at = 1; at < 4; at++) {
        if (fb->modifier[at] != 0)
            return false;
        if (!may_be_set && (fb->handles[at] != 0 || fb->pitches[at] != 0 || fb->offsets[at] != 0))
            return false;
    }
    return true;
}

/* Returns whether the server can add the framebuffer: one plane from the object's front, and the
 * linear modifier, which is 0. */
static bool is_plain(const struct drm_mode_fb_cmd2 *fb)
{
    const uint32_t known = DRM_MODE_FB_INTERLACED | DRM_MODE_FB_MODIFIERS;

    return has_unused_planes(fb) && fb->offsets[0] == 0 && (fb->flags & ~known) == 0
           && fb->modifier[0] == DRM_FORMAT_MOD_LINEAR;
}

int answer_add_fb2(struct connection *connection, void *argument)
{
    struct drm_mode_fb_cmd2 *fb = argument;
    struct framebuffer added = {.width = fb->width,
                                .height = fb->height,
                                .format = fb->pixel_format,
                                .pitch = fb->pitches[0]};
    uint32_t bits = bits_of_format(fb->pixel_format);
    int failed;

    if (bits == 0 || !is_plain(fb))
        return -EINVAL;
    failed = zirkoshe_drmModeAddFB(&connection->client, fb->width, fb->height, fb->pitches[0], bits,
                                   fb->handles[0], &fb->fb_id);
    if (!failed)
        framebuffer_is_added(connection, fb->fb_id, &added, fb->handles[0]);
    return failed;
}

/* Asks for a framebuffer. The handle that the server returns is new. Its memory is as long as
 * the framebuffer needs. */
static int get_fb(struct connection *connection, uint32_t fb_id, struct zirkoshe_fb *fb)
{
    int failed = zirkoshe_drmModeGetFB(&connection->client, fb_id, fb);
    uint64_t size;

    if (failed || fb->handle == 0)
        return failed;
    size = (uint64_t)fb->pitch * fb->height;
    buffers_note_object(connection, fb->handle, (size + 4095) / 4096 * 4096,
                        framebuffer_object(fb_id));
    return 0;
}

int answer_get_fb(struct connection *connection, void *argument)
{
    struct drm_mode_fb_cmd *fb = argument;
    struct zirkoshe_fb found;
    int failed = get_fb(connection, fb->fb_id, &found);

    if (failed)
        return failed;
    fb->width = found.width;
    fb->height = found.height;
    fb->pitch = found.pitch;
    fb->bpp = found.bpp;
    fb->depth = depth_of_bits(found.bpp);
    fb->handle = found.handle;
    return 0;
}

int answer_get_fb2(struct connection *connection, void *argument)
{
    struct drm_mode_fb_cmd2 *fb = argument;
    uint32_t fb_id = fb->fb_id;
    struct framebuffer known = {0};
    struct zirkoshe_fb found;
    int failed = get_fb(connection, fb_id, &found);

    if (failed)
        return failed;
    memset(fb, 0, sizeof *fb);
    fb->fb_id = fb_id;
    fb->width = found.width;
    fb->height = found.height;
    framebuffer_is_known(fb_id, &known);
    fb->pixel_format = known.format != 0 ? known.format : format_of_bits(found.bpp);
    fb->flags = DRM_MODE_FB_MODIFIERS;
    fb->pitches[0] = found.pitch;
    fb->handles[0] = found.handle;
    return 0;
}

int answer_rm_fb(struct connection *connection, void *argument)
{
    const uint32_t *fb_id = argument;
    int failed = zirkoshe_drmModeRmFB(&connection->client, *fb_id);

    /* what shows it becomes dark */
    crtcs_are_unsure();
    if (!failed) {
        framebuffer_is_removed(*fb_id);
        state_fb_is_removed(*fb_id);
    }
    return failed;
}
