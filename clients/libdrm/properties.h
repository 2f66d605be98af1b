/* The properties of planes, CRTCs and connectors: those that the kernel's core has for each
 * driver with atomic commits. */
#ifndef ZIRKOSHE_LIBDRM_PROPERTIES_H
#define ZIRKOSHE_LIBDRM_PROPERTIES_H

#include "connections.h"
#include "states.h"

#include <drm_mode.h>

/* Their ids. Ids of mode objects are smaller. */
enum property_id {
    TYPE = 1000,
    DPMS,
    IN_FORMATS,
    LINK_STATUS,
    NON_DESKTOP,
    ACTIVE,
    MODE_ID,
    OUT_FENCE_PTR,
    FB_ID,
    CRTC_ID,
    SRC_X,
    SRC_Y,
    SRC_W,
    SRC_H,
    CRTC_X,
    CRTC_Y,
    CRTC_W,
    CRTC_H,
    IN_FENCE_FD,
    GAMMA_LUT,
    GAMMA_LUT_SIZE,
};

struct property {
    enum property_id id;
    uint32_t flags;
    const char *name;
    uint64_t least, most; /* of a range; of an object, its kind */
    const struct drm_mode_property_enum *values;
    uint32_t count; /* how many values an enumeration has */
};

/* Returns where a plane has the value of a property from FB_ID to CRTC_H, or NULL. */
uint32_t *plane_field(struct plane_state *plane, enum property_id id);

/* Returns the property with this id, or NULL. */
const struct property *property_find(uint32_t id);

/* Returns the properties of a kind of object, and how many, which an atomic client or another one
 * sees. */
const enum property_id *properties_of(uint32_t kind, bool is_atomic, uint32_t *count);

/* Returns whether an object of this kind has the property. */
bool property_is_of(uint32_t id, uint32_t kind);

/* Returns whether a blob has entries of gamma; 0 is none. */
bool is_gamma(uint32_t blob_id);

/* Returns whether a value can be set, as drm_property_change_valid_get does. The ids of objects are
 * not looked up. */
bool property_accepts(const struct property *property, uint64_t value);

#endif
