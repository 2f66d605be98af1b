/* For tests: requests of a lessee that fail. It has the second CRTC, its primary plane and the
 * second connector. */
#define _GNU_SOURCE
#include "libdrm_errnos.h"

#include <errno.h>
#include <stddef.h>
#include <string.h>
#include <sys/ioctl.h>

#define COMMIT(flags, ...)                                                                         \
    commit_of(context, context->lessee, flags, (const struct set[]){__VA_ARGS__},                  \
              sizeof((const struct set[]){__VA_ARGS__}) / sizeof(struct set))

static int creates_a_lease(struct context *context)
{
    uint32_t ids[] = {context->crtcs[1], context->planes[1], context->connectors[1]};
    struct drm_mode_create_lease lease = {.object_ids = (uintptr_t)ids, .object_count = 3};

    if (ioctl(context->card, DRM_IOCTL_MODE_CREATE_LEASE, &lease) != 0)
        return -1;
    context->lessee = (int)lease.fd;
    context->lessee_id = lease.lessee_id;
    return 0;
}

static int properties_of(struct context *context, uint32_t object)
{
    struct drm_mode_obj_get_properties properties = {.obj_id = object};

    return ioctl(context->lessee, DRM_IOCTL_MODE_OBJ_GETPROPERTIES, &properties);
}

static int properties_of_its_crtc(struct context *context)
{
    return properties_of(context, context->crtcs[1]);
}

static int properties_of_another_crtc(struct context *context)
{
    return properties_of(context, context->crtcs[0]);
}

static int properties_of_another_plane(struct context *context)
{
    return properties_of(context, context->planes[0]);
}

static int properties_of_another_connector(struct context *context)
{
    return properties_of(context, context->connectors[0]);
}

static int property_of_another_connector(struct context *context)
{
    struct drm_mode_connector_set_property set = {.prop_id = NO_ID,
                                                  .connector_id = context->connectors[0]};

    return ioctl(context->lessee, DRM_IOCTL_MODE_SETPROPERTY, &set);
}

static int another_connector(struct context *context)
{
    struct drm_mode_get_connector get = {.connector_id = context->connectors[0]};

    return ioctl(context->lessee, DRM_IOCTL_MODE_GETCONNECTOR, &get);
}

static int an_encoder(struct context *context)
{
    struct drm_mode_get_encoder get = {.encoder_id = context->encoders[0]};

    return ioctl(context->lessee, DRM_IOCTL_MODE_GETENCODER, &get);
}

static int gamma_of_another_crtc(struct context *context)
{
    struct drm_mode_crtc_lut lut = {.crtc_id = context->crtcs[0]};

    return ioctl(context->lessee, DRM_IOCTL_MODE_GETGAMMA, &lut);
}

static int cursor_on_another_crtc(struct context *context)
{
    struct drm_mode_cursor cursor = {.flags = DRM_MODE_CURSOR_MOVE, .crtc_id = context->crtcs[0]};

    return ioctl(context->lessee, DRM_IOCTL_MODE_CURSOR, &cursor);
}

static int sequence_of_another_crtc(struct context *context)
{
    struct drm_crtc_get_sequence get = {.crtc_id = context->crtcs[0]};

    return ioctl(context->lessee, DRM_IOCTL_CRTC_GET_SEQUENCE, &get);
}

static int flip(struct context *context, int crtc)
{
    struct drm_mode_crtc_page_flip flip = {context->crtcs[crtc], context->fb, 0, 0, 0};

    return ioctl(context->lessee, DRM_IOCTL_MODE_PAGE_FLIP, &flip);
}

static int flip_of_another_crtc(struct context *context)
{
    return flip(context, 0);
}

static int flip_of_its_dark_crtc(struct context *context)
{
    return flip(context, 1);
}

static int sets(struct context *context, int crtc, int connector)
{
    struct drm_mode_crtc set = {.crtc_id = context->crtcs[crtc],
                                .fb_id = context->fb,
                                .set_connectors_ptr = (uintptr_t)&context->connectors[connector],
                                .count_connectors = 1,
                                .mode_valid = 1,
                                .mode = mode_of(SIDE, SIDE)};

    return ioctl(context->lessee, DRM_IOCTL_MODE_SETCRTC, &set);
}

static int sets_another_crtc(struct context *context)
{
    return sets(context, 0, 1);
}

static int sets_another_connector(struct context *context)
{
    return sets(context, 1, 0);
}

static int sets_its_crtc(struct context *context)
{
    return sets(context, 1, 1);
}

static int wait_of(struct context *context, uint32_t type)
{
    union drm_wait_vblank wait = {.request = {(enum drm_vblank_seq_type)type, 0, 0}};

    return ioctl(context->lessee, DRM_IOCTL_WAIT_VBLANK, &wait);
}

static int wait_of_its_crtc(struct context *context)
{
    return wait_of(context, _DRM_VBLANK_RELATIVE);
}

static int wait_of_a_second_crtc(struct context *context)
{
    return wait_of(context, _DRM_VBLANK_RELATIVE | 1 << _DRM_VBLANK_HIGH_CRTC_SHIFT);
}

static int lists_lessees(struct context *context)
{
    struct drm_mode_list_lessees list = {0};

    return ioctl(context->lessee, DRM_IOCTL_MODE_LIST_LESSEES, &list);
}

static int commit_without_the_capability(struct context *context)
{
    return COMMIT(0, {context->planes[1], "FB_ID", 0});
}

static int turns_it_on(struct context *context)
{
    struct drm_set_client_cap cap = {DRM_CLIENT_CAP_ATOMIC, 1};

    return ioctl(context->lessee, DRM_IOCTL_SET_CLIENT_CAP, &cap);
}

static int commit_of_another_plane(struct context *context)
{
    return COMMIT(0, {context->planes[0], "FB_ID", 0});
}

static int plane_on_another_crtc(struct context *context)
{
    return COMMIT(0, {context->planes[1], "CRTC_ID", context->crtcs[0]});
}

static int connector_on_another_crtc(struct context *context)
{
    return COMMIT(DRM_MODE_ATOMIC_ALLOW_MODESET,
                  {context->connectors[1], "CRTC_ID", context->crtcs[0]});
}

static int plane_on_no_crtc(struct context *context)
{
    return COMMIT(0, {context->planes[1], "CRTC_ID", NO_ID});
}

static int commit_of_its_plane(struct context *context)
{
    return COMMIT(DRM_MODE_ATOMIC_TEST_ONLY, {context->planes[1], "FB_ID", context->other_fb});
}

static int revokes(struct context *context)
{
    struct drm_mode_revoke_lease revoke = {context->lessee_id};

    return ioctl(context->card, DRM_IOCTL_MODE_REVOKE_LEASE, &revoke);
}

const struct trial lease_trials[] = {
    {"MODE_CREATE_LEASE", creates_a_lease},
    {"lessee: MODE_OBJ_GETPROPERTIES, its CRTC", properties_of_its_crtc},
    {"lessee: MODE_OBJ_GETPROPERTIES, another CRTC", properties_of_another_crtc},
    {"lessee: MODE_OBJ_GETPROPERTIES, another plane", properties_of_another_plane},
    {"lessee: MODE_OBJ_GETPROPERTIES, another connector", properties_of_another_connector},
    {"lessee: MODE_SETPROPERTY, another connector", property_of_another_connector},
    {"lessee: MODE_GETCONNECTOR, another connector", another_connector},
    {"lessee: MODE_GETENCODER", an_encoder},
    {"lessee: MODE_GETGAMMA, another CRTC", gamma_of_another_crtc},
    {"lessee: MODE_CURSOR, another CRTC", cursor_on_another_crtc},
    {"lessee: CRTC_GET_SEQUENCE, another CRTC", sequence_of_another_crtc},
    {"lessee: MODE_PAGE_FLIP, another CRTC", flip_of_another_crtc},
    {"lessee: MODE_PAGE_FLIP, its dark CRTC", flip_of_its_dark_crtc},
    {"lessee: MODE_SETCRTC, another CRTC", sets_another_crtc},
    {"lessee: MODE_SETCRTC, another connector", sets_another_connector},
    {"lessee: MODE_SETCRTC", sets_its_crtc},
    {"lessee: WAIT_VBLANK, index 0", wait_of_its_crtc},
    {"lessee: WAIT_VBLANK, index 1", wait_of_a_second_crtc},
    {"lessee: MODE_LIST_LESSEES", lists_lessees},
    {"lessee: MODE_ATOMIC, without the capability", commit_without_the_capability},
    {"lessee: SET_CLIENT_CAP ATOMIC, 1", turns_it_on},
    {"lessee: MODE_ATOMIC, another plane", commit_of_another_plane},
    {"lessee: MODE_ATOMIC, plane on another CRTC", plane_on_another_crtc},
    {"lessee: MODE_ATOMIC, connector on another CRTC", connector_on_another_crtc},
    {"lessee: MODE_ATOMIC, plane on no CRTC", plane_on_no_crtc},
    {"lessee: MODE_ATOMIC, its plane", commit_of_its_plane},
    {"MODE_REVOKE_LEASE", revokes},
    {"revoked: MODE_OBJ_GETPROPERTIES", properties_of_its_crtc},
    {"revoked: MODE_SETCRTC", sets_its_crtc},
    {"revoked: MODE_PAGE_FLIP", flip_of_its_dark_crtc},
    {"revoked: MODE_ATOMIC", commit_of_its_plane},
    {"revoked: MODE_LIST_LESSEES", lists_lessees},
    {"revoked: WAIT_VBLANK, index 0", wait_of_its_crtc},
    {NULL, NULL},
};
