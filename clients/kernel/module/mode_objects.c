// SPDX-License-Identifier: GPL-2.0-only
// The mode objects of a topology, created in the order of their ids.
#include <drm/drm_atomic_helper.h>
#include <drm/drm_atomic_state_helper.h>
#include <drm/drm_color_mgmt.h>
#include <drm/drm_connector.h>
#include <drm/drm_edid.h>
#include <drm/drm_encoder.h>
#include <drm/drm_fourcc.h>
#include <drm/drm_gem_framebuffer_helper.h>
#include <drm/drm_managed.h>
#include <drm/drm_mode_config.h>
#include <drm/drm_modeset_helper_vtables.h>
#include <drm/drm_probe_helper.h>
#include <drm/drm_vblank.h>

#include "card.h"

// the entries of a table of gamma
#define GAMMA_SIZE 256

struct mode_objects {
    const struct topology *topology;
    bool blanks;
    struct crtc crtcs[MOST_CRTCS];
    struct drm_plane planes[MOST_OBJECTS];
    struct drm_encoder encoders[MOST_OBJECTS];
    struct drm_connector connectors[MOST_OBJECTS];
};

// a format of each number of bits that MODE_ADDFB knows
static const u32 plane_formats[] = {
    DRM_FORMAT_XRGB8888, DRM_FORMAT_ARGB8888, DRM_FORMAT_XRGB2101010, DRM_FORMAT_RGB888,
    DRM_FORMAT_RGB565,   DRM_FORMAT_XRGB1555, DRM_FORMAT_C8,          DRM_FORMAT_R8,
    DRM_FORMAT_C4,       DRM_FORMAT_C2,       DRM_FORMAT_C1,          DRM_FORMAT_ABGR16161616F};

// nothing is to be done where there is no hardware
static void change_plane(struct drm_plane *plane, struct drm_atomic_state *state)
{
}

static const struct drm_plane_helper_funcs plane_helpers = {
    .atomic_update = change_plane,
};

static const struct drm_plane_funcs plane_functions = {
    .update_plane = drm_atomic_helper_update_plane,
    .disable_plane = drm_atomic_helper_disable_plane,
    .destroy = drm_plane_cleanup,
    .reset = drm_atomic_helper_plane_reset,
    .atomic_duplicate_state = drm_atomic_helper_plane_duplicate_state,
    .atomic_destroy_state = drm_atomic_helper_plane_destroy_state,
};

static const struct drm_encoder_funcs encoder_functions = {
    .destroy = drm_encoder_cleanup,
};

static const struct drm_connector_funcs connector_functions = {
    .fill_modes = drm_helper_probe_single_connector_modes,
    .destroy = drm_connector_cleanup,
    .reset = drm_atomic_helper_connector_reset,
    .atomic_duplicate_state = drm_atomic_helper_connector_duplicate_state,
    .atomic_destroy_state = drm_atomic_helper_connector_destroy_state,
};

static int list_modes(struct drm_connector *connector)
{
    return drm_add_modes_noedid(connector, 1920, 1080);
}

static const struct drm_connector_helper_funcs connector_helpers = {
    .get_modes = list_modes,
};

static const struct drm_mode_config_funcs config_functions = {
    .fb_create = drm_gem_fb_create,
    .atomic_check = drm_atomic_helper_check,
    .atomic_commit = drm_atomic_helper_commit,
};

static int create_crtc(struct drm_device *device, struct mode_objects *objects, unsigned int i)
{
    struct drm_crtc *crtc = &objects->crtcs[i].base;

    int result;

    drm_crtc_helper_add(crtc,
                        objects->blanks ? &zirkoshe_blanking_crtc_helpers : &zirkoshe_crtc_helpers);
    result = drm_crtc_init_with_planes(
        device, crtc, NULL, NULL,
        objects->blanks ? &zirkoshe_blanking_crtc_functions : &zirkoshe_crtc_functions, NULL);
    if (result)
        return result;
    drm_crtc_enable_color_mgmt(crtc, 0, false, GAMMA_SIZE);
    return drm_mode_crtc_set_gamma_size(crtc, GAMMA_SIZE);
}

// MODE_SETCRTC sets the plane that the core holds for the CRTC: its primary plane or, if it has
// none, its first one.
static void choose_plane(struct mode_objects *objects, unsigned int i)
{
    const struct topology *topology = objects->topology;
    struct drm_crtc *first = &objects->crtcs[topology->first_crtcs[i]].base;
    unsigned int crtc;

    if (topology->types[i] == DRM_PLANE_TYPE_CURSOR)
        first->cursor = &objects->planes[i];
    if (topology->types[i] == DRM_PLANE_TYPE_PRIMARY)
        first->primary = &objects->planes[i];
    for (crtc = 0; crtc < topology->crtcs && topology->types[i] == DRM_PLANE_TYPE_OVERLAY; crtc++) {
        if (topology->plane_crtcs[i] & BIT(crtc) && !objects->crtcs[crtc].base.primary)
            objects->crtcs[crtc].base.primary = &objects->planes[i];
    }
}

static bool has_planes(const struct mode_objects *objects)
{
    unsigned int crtc = 0;

    while (crtc < objects->topology->crtcs && objects->crtcs[crtc].base.primary)
        crtc++;
    return crtc == objects->topology->crtcs;
}

static int create_plane(struct drm_device *device, struct mode_objects *objects, unsigned int i)
{
    struct drm_plane *plane = &objects->planes[i];

    drm_plane_helper_add(plane, &plane_helpers);
    choose_plane(objects, i);
    return drm_universal_plane_init(device, plane, objects->topology->plane_crtcs[i],
                                    &plane_functions, plane_formats, ARRAY_SIZE(plane_formats),
                                    NULL, objects->topology->types[i], NULL);
}

static int create_encoder(struct drm_device *device, struct mode_objects *objects, unsigned int i)
{
    struct drm_encoder *encoder = &objects->encoders[i];

    encoder->possible_crtcs = objects->topology->encoder_crtcs[i];
    return drm_encoder_init(device, encoder, &encoder_functions, DRM_MODE_ENCODER_VIRTUAL, NULL);
}

static int create_connector(struct drm_device *device, struct mode_objects *objects, unsigned int i)
{
    struct drm_connector *connector = &objects->connectors[i];
    unsigned int encoder = objects->topology->connector_encoders[i];
    int result =
        drm_connector_init(device, connector, &connector_functions, DRM_MODE_CONNECTOR_VIRTUAL);

    if (result)
        return result;
    drm_connector_helper_add(connector, &connector_helpers);
    return drm_connector_attach_encoder(connector, &objects->encoders[encoder]);
}

static int configure(struct drm_device *device)
{
    int result = drmm_mode_config_init(device);

    if (result)
        return result;
    device->mode_config.min_width = 1;
    device->mode_config.min_height = 1;
    device->mode_config.max_width = 65535;
    device->mode_config.max_height = 65535;
    device->mode_config.preferred_depth = 24;
    device->mode_config.funcs = &config_functions;
    return 0;
}

// The object at a place of all kinds in their order.
static int create_object(struct drm_device *device, struct mode_objects *objects, unsigned int i)
{
    const struct topology *topology = objects->topology;

    if (i < topology->crtcs)
        return create_crtc(device, objects, i);
    i -= topology->crtcs;
    if (i < topology->planes)
        return create_plane(device, objects, i);
    i -= topology->planes;
    if (i < topology->encoders)
        return create_encoder(device, objects, i);
    return create_connector(device, objects, i - topology->encoders);
}

int zirkoshe_create_mode_objects(struct drm_device *device, const struct topology *topology,
                                 bool blanks)
{
    struct mode_objects *objects = drmm_kzalloc(device, sizeof(*objects), GFP_KERNEL);
    int result = objects ? configure(device) : -ENOMEM;
    unsigned int count =
        topology->crtcs + topology->planes + topology->encoders + topology->connectors;
    unsigned int i;

    if (result)
        return result;
    objects->topology = topology;
    objects->blanks = blanks;
    for (i = 0; i < count && !result; i++)
        result = create_object(device, objects, i);
    // the core would fail at a MODE_SETCRTC of a CRTC without one
    if (!result && !has_planes(objects))
        result = -EINVAL;
    if (!result && blanks)
        result = drm_vblank_init(device, topology->crtcs);
    if (!result)
        drm_mode_config_reset(device);
    return result;
}
