/* SPDX-License-Identifier: GPL-2.0-only */
/* The parts of the module: a DRM device without hardware, with the mode objects of a topology. */
#ifndef ZIRKOSHE_CARD_H
#define ZIRKOSHE_CARD_H

#include <drm/drm_crtc.h>
#include <drm/drm_device.h>
#include <drm/drm_file.h>
#include <drm/drm_mode.h>
#include <drm/drm_plane.h>

#define MOST_CRTCS 8
#define MOST_OBJECTS 64

/* The mode objects of a topology file, in its order. */
struct topology {
    unsigned int crtcs;
    unsigned int planes;
    unsigned int encoders;
    unsigned int connectors;
    enum drm_plane_type types[MOST_OBJECTS];
    /* the masks of possible CRTCs, and the first CRTC that a line names */
    u32 plane_crtcs[MOST_OBJECTS];
    unsigned int first_crtcs[MOST_OBJECTS];
    u32 encoder_crtcs[MOST_OBJECTS];
    /* the positions of the connectors' encoders */
    unsigned int connector_encoders[MOST_OBJECTS];
};

/* Reads the lines of a topology file, with `,` between them and `:` and `+` between their words. */
int zirkoshe_read_topology(struct topology *topology, const char *text);

/* Creates the mode objects, in the order of their ids. */
int zirkoshe_create_mode_objects(struct drm_device *device, const struct topology *topology,
                                 bool blanks);

/* A CRTC. Its timer is the vertical blanking. */
struct crtc {
    struct drm_crtc base;
    struct hrtimer timer;
    ktime_t period;
};

extern const struct drm_crtc_funcs zirkoshe_crtc_functions;
extern const struct drm_crtc_helper_funcs zirkoshe_crtc_helpers;
extern const struct drm_crtc_funcs zirkoshe_blanking_crtc_functions;
extern const struct drm_crtc_helper_funcs zirkoshe_blanking_crtc_helpers;

/* The driver's part of MODE_CREATE_DUMB: the formula of pitch and size. */
int zirkoshe_create_dumb(struct drm_file *file, struct drm_device *device,
                         struct drm_mode_create_dumb *dumb);

/* The driver calls. */
int zirkoshe_buf_create(struct drm_device *device, void *data, struct drm_file *file);
int zirkoshe_stamp_write(struct drm_device *device, void *data, struct drm_file *file);
int zirkoshe_stamp_read(struct drm_device *device, void *data, struct drm_file *file);
int zirkoshe_list_handles(struct drm_device *device, void *data, struct drm_file *file);

#endif
