/* For tests: requests that fail, each as an ioctl, and the errno of each. The same program runs
 * with the library for libdrm programs and on a kernel. The argument is the card.
 */
#define _GNU_SOURCE
#include "libdrm_errnos.h"

#include <errno.h>
#include <fcntl.h>
#include <stdio.h>
#include <stdlib.h>
#include <string.h>
#include <sys/ioctl.h>

struct drm_mode_modeinfo mode_of(uint32_t width, uint32_t height)
{
    struct drm_mode_modeinfo mode = {0};

    mode.hdisplay = mode.hsync_start = mode.hsync_end = (uint16_t)width;
    mode.vdisplay = mode.vsync_start = mode.vsync_end = (uint16_t)height;
    mode.htotal = 1000;
    mode.vtotal = 200;
    mode.clock = 1000;
    mode.vrefresh = 5;
    strcpy(mode.name, "trial");
    return mode;
}

int show(struct context *context, int crtc, uint32_t fb, int connector)
{
    uint32_t id = connector < 0 ? 0 : context->connectors[connector];
    struct drm_mode_crtc set = {.crtc_id = context->crtcs[crtc],
                                .fb_id = fb,
                                .set_connectors_ptr = (uintptr_t)&id,
                                .count_connectors = connector >= 0,
                                .mode_valid = fb != 0,
                                .mode = mode_of(SIDE, SIDE)};

    return ioctl(context->card, DRM_IOCTL_MODE_SETCRTC, &set);
}

static void stop(const char *what)
{
    perror(what);
    exit(2);
}

static void find_objects(struct context *context)
{
    struct drm_set_client_cap planes_on = {DRM_CLIENT_CAP_UNIVERSAL_PLANES, 1};
    struct drm_mode_card_res card = {.crtc_id_ptr = (uintptr_t)context->crtcs,
                                     .count_crtcs = 2,
                                     .encoder_id_ptr = (uintptr_t)context->encoders,
                                     .count_encoders = 2,
                                     .connector_id_ptr = (uintptr_t)context->connectors,
                                     .count_connectors = 2};
    struct drm_mode_get_plane_res planes = {(uintptr_t)context->planes, MOST_PLANES};

    if (ioctl(context->card, DRM_IOCTL_SET_CLIENT_CAP, &planes_on) != 0
        || ioctl(context->card, DRM_IOCTL_MODE_GETRESOURCES, &card) != 0
        || ioctl(context->card, DRM_IOCTL_MODE_GETPLANERESOURCES, &planes) != 0
        || card.count_crtcs != 2 || card.count_connectors != 2 || planes.count_planes < 3
        || planes.count_planes > MOST_PLANES)
        stop("the mode objects");
}

static uint32_t add_fb(struct context *context, uint32_t side, uint32_t bits)
{
    struct drm_mode_create_dumb dumb = {.width = side, .height = side, .bpp = bits};
    struct drm_mode_fb_cmd add = {.width = side, .height = side, .bpp = bits};

    if (ioctl(context->card, DRM_IOCTL_MODE_CREATE_DUMB, &dumb) != 0)
        stop("a buffer");
    add.depth = bits == 32 ? 24 : bits;
    add.pitch = dumb.pitch;
    add.handle = context->handle = dumb.handle;
    if (ioctl(context->card, DRM_IOCTL_MODE_ADDFB, &add) != 0)
        stop("a framebuffer");
    return add.fb_id;
}

static void run_trials(struct context *context, const struct trial *trials)
{
    for (; trials->name; trials++) {
        int result = trials->make(context);

        printf("%s: %s\n", trials->name, result == 0 ? "done" : strerrorname_np(errno));
        fflush(stdout);
    }
}

int main(int count, char **words)
{
    struct context context = {.card = -1};

    context.card = count > 1 ? open(words[1], O_RDWR | O_CLOEXEC | O_NONBLOCK) : -1;
    context.guest = count > 1 ? open(words[1], O_RDWR | O_CLOEXEC) : -1;
    context.render = count > 2 ? open(words[2], O_RDWR | O_CLOEXEC) : -1;
    if (context.card < 0 || context.guest < 0 || context.render < 0)
        stop("the nodes");
    find_objects(&context);
    context.narrow_fb = add_fb(&context, SIDE, 16);
    context.small_fb = add_fb(&context, SIDE / 2, 32);
    context.other_fb = add_fb(&context, SIDE, 32);
    context.fb = add_fb(&context, SIDE, 32);
    run_trials(&context, core_trials);
    run_trials(&context, sync_trials);
    run_trials(&context, mode_trials);
    run_trials(&context, blank_trials);
    run_trials(&context, atomic_trials);
    run_trials(&context, lease_trials);
    return 0;
}
