/* For tests: flips and vertical blanking that fail. The trials are in the order of what they
 * change. */
#define _GNU_SOURCE
#include "libdrm_errnos.h"

#include <errno.h>
#include <poll.h>
#include <stddef.h>
#include <sys/ioctl.h>
#include <unistd.h>

static int flip(struct context *context, uint32_t crtc, uint32_t fb, uint32_t flags,
                uint32_t reserved)
{
    struct drm_mode_crtc_page_flip flip = {crtc, fb, flags, reserved, 0};

    return ioctl(context->card, DRM_IOCTL_MODE_PAGE_FLIP, &flip);
}

static int flip_with_other_flags(struct context *context)
{
    return flip(context, context->crtcs[0], context->fb, 0x100, 0);
}

static int flip_with_a_reserved_field(struct context *context)
{
    return flip(context, context->crtcs[0], context->fb, 0, 1);
}

static int flip_at_once(struct context *context)
{
    return flip(context, context->crtcs[0], context->fb, DRM_MODE_PAGE_FLIP_ASYNC, 0);
}

static int flip_of_no_crtc(struct context *context)
{
    return flip(context, NO_ID, context->fb, 0, 0);
}

static int flip_of_a_dark_crtc(struct context *context)
{
    return flip(context, context->crtcs[1], context->fb, 0, 0);
}

static int flip_to_no_framebuffer(struct context *context)
{
    return flip(context, context->crtcs[0], NO_ID, 0, 0);
}

static int flip_to_a_small_framebuffer(struct context *context)
{
    return flip(context, context->crtcs[0], context->small_fb, 0, 0);
}

static int flip_to_another_format(struct context *context)
{
    return flip(context, context->crtcs[0], context->narrow_fb, 0, 0);
}

static int flip_of_a_guest(struct context *context)
{
    struct drm_mode_crtc_page_flip flip = {context->crtcs[0], context->fb, 0, 0, 0};

    return ioctl(context->guest, DRM_IOCTL_MODE_PAGE_FLIP, &flip);
}

static int flip_with_an_event(struct context *context)
{
    return flip(context, context->crtcs[0], context->other_fb, DRM_MODE_PAGE_FLIP_EVENT, 0);
}

/* The next one finds it incomplete. */
static int second_flip(struct context *context)
{
    return flip(context, context->crtcs[0], context->fb, DRM_MODE_PAGE_FLIP_EVENT, 0);
}

static int event_of_the_flip(struct context *context)
{
    char room[64];
    struct pollfd waited = {context->card, POLLIN, 0};

    poll(&waited, 1, 5000);
    return read(context->card, room, sizeof(room)) == sizeof(struct drm_event_vblank) ? 0 : -1;
}

static int wait_of(struct context *context, uint32_t type)
{
    union drm_wait_vblank wait = {.request = {(enum drm_vblank_seq_type)type, 0, 0}};

    return ioctl(context->card, DRM_IOCTL_WAIT_VBLANK, &wait);
}

static int wait_of_a_lit_crtc(struct context *context)
{
    return wait_of(context, _DRM_VBLANK_RELATIVE);
}

static int wait_of_a_dark_crtc(struct context *context)
{
    return wait_of(context, _DRM_VBLANK_RELATIVE | _DRM_VBLANK_SECONDARY);
}

static int wait_of_no_crtc(struct context *context)
{
    return wait_of(context, _DRM_VBLANK_RELATIVE | 5 << _DRM_VBLANK_HIGH_CRTC_SHIFT);
}

static int wait_for_a_signal(struct context *context)
{
    return wait_of(context, _DRM_VBLANK_RELATIVE | _DRM_VBLANK_SIGNAL);
}

static int wait_of_other_flags(struct context *context)
{
    return wait_of(context, _DRM_VBLANK_RELATIVE | 0x2);
}

static int sequence_of(struct context *context, uint32_t crtc)
{
    struct drm_crtc_get_sequence get = {.crtc_id = crtc};

    return ioctl(context->card, DRM_IOCTL_CRTC_GET_SEQUENCE, &get);
}

static int sequence_of_no_crtc(struct context *context)
{
    return sequence_of(context, NO_ID);
}

static int sequence_of_a_dark_crtc(struct context *context)
{
    return sequence_of(context, context->crtcs[1]);
}

static int sequence_of_a_lit_crtc(struct context *context)
{
    return sequence_of(context, context->crtcs[0]);
}

static int queue(struct context *context, uint32_t crtc, uint32_t flags)
{
    struct drm_crtc_queue_sequence queue = {.crtc_id = crtc, .flags = flags};

    return ioctl(context->card, DRM_IOCTL_CRTC_QUEUE_SEQUENCE, &queue);
}

static int queue_of_no_crtc(struct context *context)
{
    return queue(context, NO_ID, DRM_CRTC_SEQUENCE_RELATIVE);
}

static int queue_of_a_dark_crtc(struct context *context)
{
    return queue(context, context->crtcs[1], DRM_CRTC_SEQUENCE_RELATIVE);
}

static int queue_with_other_flags(struct context *context)
{
    return queue(context, context->crtcs[0], 0x100);
}

static int lights(struct context *context)
{
    return show(context, 0, context->fb, 0);
}

static int darkens(struct context *context)
{
    return show(context, 0, 0, -1);
}

const struct trial blank_trials[] = {
    {"MODE_SETCRTC, lights a CRTC", lights},
    {"MODE_PAGE_FLIP, other flags", flip_with_other_flags},
    {"MODE_PAGE_FLIP, reserved field", flip_with_a_reserved_field},
    {"MODE_PAGE_FLIP, PAGE_FLIP_ASYNC", flip_at_once},
    {"MODE_PAGE_FLIP, no such CRTC", flip_of_no_crtc},
    {"MODE_PAGE_FLIP, dark CRTC", flip_of_a_dark_crtc},
    {"MODE_PAGE_FLIP, no such framebuffer", flip_to_no_framebuffer},
    {"MODE_PAGE_FLIP, framebuffer smaller than the mode", flip_to_a_small_framebuffer},
    {"MODE_PAGE_FLIP, another format", flip_to_another_format},
    {"MODE_PAGE_FLIP, not current", flip_of_a_guest},
    {"MODE_PAGE_FLIP, with an event", flip_with_an_event},
    {"MODE_PAGE_FLIP, before that is complete", second_flip},
    {"read, the event of a flip", event_of_the_flip},
    {"WAIT_VBLANK, lit CRTC", wait_of_a_lit_crtc},
    {"WAIT_VBLANK, dark CRTC", wait_of_a_dark_crtc},
    {"WAIT_VBLANK, index without a CRTC", wait_of_no_crtc},
    {"WAIT_VBLANK, signal", wait_for_a_signal},
    {"WAIT_VBLANK, other flags", wait_of_other_flags},
    {"CRTC_GET_SEQUENCE, lit CRTC", sequence_of_a_lit_crtc},
    {"CRTC_GET_SEQUENCE, no such CRTC", sequence_of_no_crtc},
    {"CRTC_GET_SEQUENCE, dark CRTC", sequence_of_a_dark_crtc},
    {"CRTC_QUEUE_SEQUENCE, no such CRTC", queue_of_no_crtc},
    {"CRTC_QUEUE_SEQUENCE, dark CRTC", queue_of_a_dark_crtc},
    {"CRTC_QUEUE_SEQUENCE, other flags", queue_with_other_flags},
    {"MODE_SETCRTC, darkens it", darkens},
    {NULL, NULL},
};
