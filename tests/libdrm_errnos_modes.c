/* For tests: requests of modes, cursors, framebuffers, flips and vertical blanking that fail. */
#define _GNU_SOURCE
#include "libdrm_errnos.h"

#include <drm_fourcc.h>
#include <errno.h>
#include <poll.h>
#include <stddef.h>
#include <sys/ioctl.h>
#include <unistd.h>

/* MODE_SETCRTC of the first CRTC and connector, with these changes */
static struct drm_mode_crtc set_of(struct context *context)
{
    return (struct drm_mode_crtc){.crtc_id = context->crtcs[0],
                                  .fb_id = context->fb,
                                  .set_connectors_ptr = (uintptr_t)context->connectors,
                                  .count_connectors = 1,
                                  .mode_valid = 1,
                                  .mode = mode_of(SIDE, SIDE)};
}

static int set(struct context *context, struct drm_mode_crtc *set)
{
    return ioctl(context->card, DRM_IOCTL_MODE_SETCRTC, set);
}

static int position_above_16_bits(struct context *context)
{
    struct drm_mode_crtc crtc = set_of(context);

    crtc.x = 0x10000;
    return set(context, &crtc);
}

static int mode_outside_the_framebuffer(struct context *context)
{
    struct drm_mode_crtc crtc = set_of(context);

    crtc.x = 1;
    return set(context, &crtc);
}

static int mode_larger_than_the_framebuffer(struct context *context)
{
    struct drm_mode_crtc crtc = set_of(context);

    crtc.fb_id = context->small_fb;
    return set(context, &crtc);
}

static int mode_without_a_framebuffer(struct context *context)
{
    struct drm_mode_crtc crtc = set_of(context);

    crtc.fb_id = 0;
    return set(context, &crtc);
}

static int mode_of_what_is_shown(struct context *context)
{
    struct drm_mode_crtc crtc = set_of(context);

    crtc.fb_id = UINT32_MAX;
    return set(context, &crtc);
}

static int mode_that_is_none(struct context *context)
{
    struct drm_mode_crtc crtc = set_of(context);

    crtc.mode.htotal = 1;
    return set(context, &crtc);
}

static int mode_with_a_high_clock(struct context *context)
{
    struct drm_mode_crtc crtc = set_of(context);

    crtc.mode.clock = 0x80000000U;
    return set(context, &crtc);
}

static int mode_with_a_high_rate(struct context *context)
{
    struct drm_mode_crtc crtc = set_of(context);

    crtc.mode.vrefresh = 0x80000000U;
    return set(context, &crtc);
}

static int mode_without_a_clock(struct context *context)
{
    struct drm_mode_crtc crtc = set_of(context);

    crtc.mode.clock = 0;
    return set(context, &crtc);
}

static int mode_of_flags(struct context *context, uint32_t flags)
{
    struct drm_mode_crtc crtc = set_of(context);

    crtc.mode.flags = flags;
    return set(context, &crtc);
}

static int mode_with_other_flags(struct context *context)
{
    return mode_of_flags(context, DRM_MODE_FLAG_BCAST);
}

static int mode_with_another_layout(struct context *context)
{
    return mode_of_flags(context, 9 << 14);
}

static int mode_with_an_aspect_ratio(struct context *context)
{
    return mode_of_flags(context, DRM_MODE_FLAG_PIC_AR_16_9);
}

/* Sets a mode with an aspect ratio while the capability is on. */
static int mode_of_a_capable_client(struct context *context, uint32_t aspect_ratio)
{
    struct drm_set_client_cap on = {DRM_CLIENT_CAP_ASPECT_RATIO, 1};
    struct drm_set_client_cap off = {DRM_CLIENT_CAP_ASPECT_RATIO, 0};
    int result, error;

    if (ioctl(context->card, DRM_IOCTL_SET_CLIENT_CAP, &on) != 0)
        return -1;
    result = mode_of_flags(context, aspect_ratio);
    error = errno;
    ioctl(context->card, DRM_IOCTL_SET_CLIENT_CAP, &off);
    errno = error;
    return result;
}

static int aspect_ratio_with_the_capability(struct context *context)
{
    return mode_of_a_capable_client(context, DRM_MODE_FLAG_PIC_AR_16_9);
}

static int another_aspect_ratio(struct context *context)
{
    return mode_of_a_capable_client(context, DRM_MODE_FLAG_PIC_AR_MASK);
}

static int unknown_connector(struct context *context)
{
    struct drm_mode_crtc crtc = set_of(context);
    uint32_t none = NO_ID;

    crtc.set_connectors_ptr = (uintptr_t)&none;
    return set(context, &crtc);
}

static int three_connectors(struct context *context)
{
    struct drm_mode_crtc crtc = set_of(context);

    crtc.count_connectors = 3;
    return set(context, &crtc);
}

static int unknown_crtc(struct context *context)
{
    struct drm_mode_crtc crtc = set_of(context);

    crtc.crtc_id = NO_ID;
    return set(context, &crtc);
}

static int connector_without_a_mode(struct context *context)
{
    struct drm_mode_crtc crtc = set_of(context);

    crtc.mode_valid = 0;
    return set(context, &crtc);
}

static int mode_of_a_guest(struct context *context)
{
    struct drm_mode_crtc crtc = set_of(context);

    return ioctl(context->guest, DRM_IOCTL_MODE_SETCRTC, &crtc);
}

static int gamma_of(struct context *context, unsigned long request, uint32_t crtc, uint32_t size)
{
    uint16_t table[256] = {0};
    struct drm_mode_crtc_lut lut = {crtc, size, (uintptr_t)table, (uintptr_t)table,
                                    (uintptr_t)table};

    return ioctl(context->card, request, &lut);
}

static int gamma_of_no_crtc(struct context *context)
{
    return gamma_of(context, DRM_IOCTL_MODE_GETGAMMA, NO_ID, 0);
}

static int gamma_of_no_entries(struct context *context)
{
    return gamma_of(context, DRM_IOCTL_MODE_GETGAMMA, context->crtcs[0], 0);
}

static int gamma_of_16_entries(struct context *context)
{
    return gamma_of(context, DRM_IOCTL_MODE_GETGAMMA, context->crtcs[0], 16);
}

static int gamma_of_256_entries(struct context *context)
{
    return gamma_of(context, DRM_IOCTL_MODE_GETGAMMA, context->crtcs[0], 256);
}

static int gamma_of_256_entries_is_set(struct context *context)
{
    return gamma_of(context, DRM_IOCTL_MODE_SETGAMMA, context->crtcs[0], 256);
}

static int gamma_at_a_wrong_address(struct context *context)
{
    struct drm_mode_crtc_lut lut = {context->crtcs[0], 256, 0, 0, 0};

    return ioctl(context->card, DRM_IOCTL_MODE_SETGAMMA, &lut);
}

static int gamma_is_set(struct context *context)
{
    return gamma_of(context, DRM_IOCTL_MODE_SETGAMMA, context->crtcs[0], 16);
}

static int gamma_of_no_crtc_is_set(struct context *context)
{
    return gamma_of(context, DRM_IOCTL_MODE_SETGAMMA, NO_ID, 16);
}

static int cursor_of(struct context *context, struct drm_mode_cursor cursor)
{
    return ioctl(context->card, DRM_IOCTL_MODE_CURSOR, &cursor);
}

static int cursor_without_flags(struct context *context)
{
    return cursor_of(context, (struct drm_mode_cursor){.crtc_id = context->crtcs[0]});
}

static int cursor_of_other_flags(struct context *context)
{
    return cursor_of(context, (struct drm_mode_cursor){.flags = 4, .crtc_id = context->crtcs[0]});
}

static int cursor_of_no_crtc(struct context *context)
{
    return cursor_of(context,
                     (struct drm_mode_cursor){.flags = DRM_MODE_CURSOR_MOVE, .crtc_id = NO_ID});
}

static int cursor_of_no_handle(struct context *context)
{
    return cursor_of(context, (struct drm_mode_cursor){.flags = DRM_MODE_CURSOR_BO,
                                                       .crtc_id = context->crtcs[0],
                                                       .width = SIDE,
                                                       .height = SIDE,
                                                       .handle = NO_ID});
}

/* A cursor with its own buffer */
static int shown_cursor(struct context *context, uint32_t side)
{
    struct drm_mode_create_dumb dumb = {.width = side, .height = side, .bpp = 32};

    if (ioctl(context->card, DRM_IOCTL_MODE_CREATE_DUMB, &dumb) != 0)
        return -1;
    return cursor_of(context, (struct drm_mode_cursor){.flags = DRM_MODE_CURSOR_BO,
                                                       .crtc_id = context->crtcs[0],
                                                       .width = side,
                                                       .height = side,
                                                       .handle = dumb.handle});
}

static int cursor_of_64_pixels(struct context *context)
{
    return shown_cursor(context, 64);
}

static int cursor_of_128_pixels(struct context *context)
{
    return shown_cursor(context, 128);
}

static int cursor_beyond_its_buffer(struct context *context)
{
    return cursor_of(context, (struct drm_mode_cursor){.flags = DRM_MODE_CURSOR_BO,
                                                       .crtc_id = context->crtcs[0],
                                                       .width = 4 * SIDE,
                                                       .height = 4 * SIDE,
                                                       .handle = context->handle});
}

static int cursor_that_overflows(struct context *context)
{
    return cursor_of(context, (struct drm_mode_cursor){.flags = DRM_MODE_CURSOR_MOVE,
                                                       .crtc_id = context->crtcs[0],
                                                       .x = INT32_MAX});
}

static int moved_cursor(struct context *context)
{
    return cursor_of(
        context, (struct drm_mode_cursor){
                     .flags = DRM_MODE_CURSOR_MOVE, .crtc_id = context->crtcs[0], .x = 5, .y = -5});
}

static int hidden_cursor(struct context *context)
{
    return cursor_of(context, (struct drm_mode_cursor){.flags = DRM_MODE_CURSOR_BO,
                                                       .crtc_id = context->crtcs[0]});
}

static int cursor_of_a_guest(struct context *context)
{
    struct drm_mode_cursor cursor = {.flags = DRM_MODE_CURSOR_MOVE, .crtc_id = context->crtcs[0]};

    return ioctl(context->guest, DRM_IOCTL_MODE_CURSOR, &cursor);
}

static struct drm_mode_fb_cmd2 framebuffer_of(struct context *context, uint32_t format)
{
    return (struct drm_mode_fb_cmd2){.width = SIDE,
                                     .height = SIDE,
                                     .pixel_format = format,
                                     .handles = {context->handle},
                                     .pitches = {SIDE * 4}};
}

static int add(struct context *context, struct drm_mode_fb_cmd2 fb)
{
    return ioctl(context->card, DRM_IOCTL_MODE_ADDFB2, &fb);
}

static int unknown_format(struct context *context)
{
    return add(context, framebuffer_of(context, fourcc_code('n', 'o', 'n', 'e')));
}

static int unknown_flags(struct context *context)
{
    struct drm_mode_fb_cmd2 fb = framebuffer_of(context, DRM_FORMAT_XRGB8888);

    fb.flags = 0x100;
    return add(context, fb);
}

static int modifier_without_the_flag(struct context *context)
{
    struct drm_mode_fb_cmd2 fb = framebuffer_of(context, DRM_FORMAT_XRGB8888);

    fb.modifier[0] = 1;
    return add(context, fb);
}

static int handle_of_an_unused_plane(struct context *context)
{
    struct drm_mode_fb_cmd2 fb = framebuffer_of(context, DRM_FORMAT_XRGB8888);

    fb.handles[1] = context->handle;
    return add(context, fb);
}

static int handle_of_an_unused_plane_with_modifiers(struct context *context)
{
    struct drm_mode_fb_cmd2 fb = framebuffer_of(context, DRM_FORMAT_XRGB8888);

    fb.flags = DRM_MODE_FB_MODIFIERS;
    fb.handles[1] = context->handle;
    return add(context, fb);
}

static int modifier_of_an_unused_plane(struct context *context)
{
    struct drm_mode_fb_cmd2 fb = framebuffer_of(context, DRM_FORMAT_XRGB8888);

    fb.modifier[1] = 1;
    return add(context, fb);
}

static int framebuffer_of_no_handle(struct context *context)
{
    struct drm_mode_fb_cmd2 fb = framebuffer_of(context, DRM_FORMAT_XRGB8888);

    fb.handles[0] = NO_ID;
    return add(context, fb);
}

static int framebuffer_at_an_offset(struct context *context)
{
    struct drm_mode_fb_cmd2 fb = framebuffer_of(context, DRM_FORMAT_XRGB8888);

    fb.offsets[0] = 4;
    return add(context, fb);
}

static int get_fb2_of_nothing(struct context *context)
{
    struct drm_mode_fb_cmd2 fb = {.fb_id = NO_ID};

    return ioctl(context->card, DRM_IOCTL_MODE_GETFB2, &fb);
}

static int dirty(struct context *context, int file, uint32_t fb)
{
    struct drm_mode_fb_dirty_cmd dirty = {.fb_id = fb};

    (void)context;
    return ioctl(file, DRM_IOCTL_MODE_DIRTYFB, &dirty);
}

static int dirty_framebuffer(struct context *context)
{
    return dirty(context, context->card, context->fb);
}

static int dirty_no_framebuffer(struct context *context)
{
    return dirty(context, context->card, NO_ID);
}

static int dirty_of_a_guest(struct context *context)
{
    return dirty(context, context->guest, context->fb);
}

static int attach_a_mode(struct context *context)
{
    struct drm_mode_mode_cmd attach = {.connector_id = NO_ID};

    return ioctl(context->card, DRM_IOCTL_MODE_ATTACHMODE, &attach);
}

/* MODE_SETPLANE of the overlay plane on the first CRTC, with these changes */
static struct drm_mode_set_plane plane_of(struct context *context)
{
    return (struct drm_mode_set_plane){.plane_id = context->planes[2],
                                       .crtc_id = context->crtcs[0],
                                       .fb_id = context->fb,
                                       .crtc_w = SIDE,
                                       .crtc_h = SIDE,
                                       .src_w = SIDE << 16,
                                       .src_h = SIDE << 16};
}

static int set_plane(struct context *context, struct drm_mode_set_plane *plane)
{
    return ioctl(context->card, DRM_IOCTL_MODE_SETPLANE, plane);
}

static int source_outside_the_framebuffer(struct context *context)
{
    struct drm_mode_set_plane plane = plane_of(context);

    plane.src_w += 1 << 16;
    return set_plane(context, &plane);
}

static int position_that_overflows(struct context *context)
{
    struct drm_mode_set_plane plane = plane_of(context);

    plane.crtc_x = INT32_MAX - 1;
    return set_plane(context, &plane);
}

static int last_position(struct context *context)
{
    struct drm_mode_set_plane plane = plane_of(context);

    plane.crtc_y = INT32_MAX - SIDE;
    return set_plane(context, &plane);
}

static int height_above_31_bits(struct context *context)
{
    struct drm_mode_set_plane plane = plane_of(context);

    plane.crtc_h = 0x80000000U;
    plane.crtc_y = INT32_MIN;
    return set_plane(context, &plane);
}

static int source_and_position(struct context *context)
{
    struct drm_mode_set_plane plane = plane_of(context);

    plane.crtc_x = INT32_MAX;
    plane.src_w += 1 << 16;
    return set_plane(context, &plane);
}

static int position_of_no_framebuffer(struct context *context)
{
    struct drm_mode_set_plane plane = plane_of(context);

    plane.crtc_x = INT32_MAX;
    plane.fb_id = NO_ID;
    return set_plane(context, &plane);
}

static int hidden_position_that_overflows(struct context *context)
{
    struct drm_mode_set_plane plane = plane_of(context);

    plane.crtc_x = INT32_MAX;
    plane.fb_id = 0;
    return set_plane(context, &plane);
}

const struct trial mode_trials[] = {
    {"MODE_SETCRTC, position above 65535", position_above_16_bits},
    {"MODE_SETCRTC, mode outside the framebuffer", mode_outside_the_framebuffer},
    {"MODE_SETCRTC, mode larger than the framebuffer", mode_larger_than_the_framebuffer},
    {"MODE_SETCRTC, mode and framebuffer 0", mode_without_a_framebuffer},
    {"MODE_SETCRTC, what a dark CRTC shows", mode_of_what_is_shown},
    {"MODE_SETCRTC, total below the sync", mode_that_is_none},
    {"MODE_SETCRTC, clock above 31 bits", mode_with_a_high_clock},
    {"MODE_SETCRTC, refresh rate above 31 bits", mode_with_a_high_rate},
    {"MODE_SETCRTC, clock of 0", mode_without_a_clock},
    {"MODE_SETCRTC, other flags of the mode", mode_with_other_flags},
    {"MODE_SETCRTC, another stereo layout", mode_with_another_layout},
    {"MODE_SETCRTC, aspect ratio without the capability", mode_with_an_aspect_ratio},
    {"MODE_SETCRTC, aspect ratio with the capability", aspect_ratio_with_the_capability},
    {"MODE_SETCRTC, another aspect ratio", another_aspect_ratio},
    {"MODE_SETCRTC, no such connector", unknown_connector},
    {"MODE_SETCRTC, three connectors of two", three_connectors},
    {"MODE_SETCRTC, no such CRTC", unknown_crtc},
    {"MODE_SETCRTC, connector without a mode", connector_without_a_mode},
    {"MODE_SETCRTC, not current", mode_of_a_guest},
    {"MODE_GETGAMMA, no such CRTC", gamma_of_no_crtc},
    {"MODE_GETGAMMA, no entries", gamma_of_no_entries},
    {"MODE_GETGAMMA, 16 entries", gamma_of_16_entries},
    {"MODE_GETGAMMA, 256 entries", gamma_of_256_entries},
    {"MODE_SETGAMMA, 16 entries", gamma_is_set},
    {"MODE_SETGAMMA, 256 entries", gamma_of_256_entries_is_set},
    {"MODE_SETGAMMA, NULL", gamma_at_a_wrong_address},
    {"MODE_SETGAMMA, no such CRTC", gamma_of_no_crtc_is_set},
    {"MODE_CURSOR, no flags", cursor_without_flags},
    {"MODE_CURSOR, other flags", cursor_of_other_flags},
    {"MODE_CURSOR, no such CRTC", cursor_of_no_crtc},
    {"MODE_CURSOR, no such handle", cursor_of_no_handle},
    {"MODE_CURSOR, 64 by 64", cursor_of_64_pixels},
    {"MODE_CURSOR, 128 by 128", cursor_of_128_pixels},
    {"MODE_CURSOR, 256 by 256 of a smaller buffer", cursor_beyond_its_buffer},
    {"MODE_CURSOR, position that overflows", cursor_that_overflows},
    {"MODE_CURSOR, move", moved_cursor},
    {"MODE_CURSOR, handle 0", hidden_cursor},
    {"MODE_CURSOR, not current", cursor_of_a_guest},
    {"MODE_ADDFB2, unknown format", unknown_format},
    {"MODE_ADDFB2, other flags", unknown_flags},
    {"MODE_ADDFB2, modifier without its flag", modifier_without_the_flag},
    {"MODE_ADDFB2, handle of an unused plane", handle_of_an_unused_plane},
    {"MODE_ADDFB2, handle of an unused plane, with modifiers",
     handle_of_an_unused_plane_with_modifiers},
    {"MODE_ADDFB2, modifier of an unused plane", modifier_of_an_unused_plane},
    {"MODE_ADDFB2, no such handle", framebuffer_of_no_handle},
    {"MODE_ADDFB2, offset beyond the object", framebuffer_at_an_offset},
    {"MODE_GETFB2, no such framebuffer", get_fb2_of_nothing},
    {"MODE_DIRTYFB", dirty_framebuffer},
    {"MODE_DIRTYFB, no such framebuffer", dirty_no_framebuffer},
    {"MODE_DIRTYFB, not current", dirty_of_a_guest},
    {"MODE_ATTACHMODE", attach_a_mode},
    {"MODE_SETPLANE, source outside the framebuffer", source_outside_the_framebuffer},
    {"MODE_SETPLANE, position that overflows", position_that_overflows},
    {"MODE_SETPLANE, last position", last_position},
    {"MODE_SETPLANE, height above 31 bits", height_above_31_bits},
    {"MODE_SETPLANE, position and source", source_and_position},
    {"MODE_SETPLANE, position of no framebuffer", position_of_no_framebuffer},
    {"MODE_SETPLANE, position without a framebuffer", hidden_position_that_overflows},
    {NULL, NULL},
};
