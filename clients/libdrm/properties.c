/* The properties of planes, CRTCs and connectors. */
#include "properties.h"

#include "blobs.h"
#include "packets.h"

#define COUNT(array) (sizeof(array) / sizeof(array)[0])
#define SIGNED(value) ((uint64_t)(int64_t)(value))

static const struct drm_mode_property_enum types[] = {
    {0, "Overlay"}, {1, "Primary"}, {2, "Cursor"}};
static const struct drm_mode_property_enum powers[] = {
    {0, "On"}, {1, "Standby"}, {2, "Suspend"}, {3, "Off"}};
static const struct drm_mode_property_enum links[] = {{DRM_MODE_LINK_STATUS_GOOD, "Good"},
                                                      {DRM_MODE_LINK_STATUS_BAD, "Bad"}};

/* A property in the place of its id */
#define PROPERTY(id, flags, name, least, most, values, count)                                      \
    [id - TYPE] = {id, flags, name, least, most, values, count}
#define ENUM(id, flags, name, values)                                                              \
    PROPERTY(id, DRM_MODE_PROP_ENUM | (flags), name, 0, 0, values, COUNT(values))
#define RANGE(id, flags, name, most)                                                               \
    PROPERTY(id, DRM_MODE_PROP_RANGE | (flags), name, 0, most, NULL, 0)
#define SIGNED_RANGE(id, name, least)                                                              \
    PROPERTY(id, DRM_MODE_PROP_SIGNED_RANGE | DRM_MODE_PROP_ATOMIC, name, SIGNED(least),           \
             INT32_MAX, NULL, 0)
#define OBJECT(id, name, kind)                                                                     \
    PROPERTY(id, DRM_MODE_PROP_OBJECT | DRM_MODE_PROP_ATOMIC, name, kind, 0, NULL, 0)
#define BLOB(id, flags, name) PROPERTY(id, DRM_MODE_PROP_BLOB | (flags), name, 0, 0, NULL, 0)

static const struct property properties[] = {
    ENUM(TYPE, DRM_MODE_PROP_IMMUTABLE, "type", types),
    ENUM(DPMS, 0, "DPMS", powers),
    BLOB(IN_FORMATS, DRM_MODE_PROP_IMMUTABLE, "IN_FORMATS"),
    ENUM(LINK_STATUS, 0, "link-status", links),
    RANGE(NON_DESKTOP, DRM_MODE_PROP_IMMUTABLE, "non-desktop", 1),
    RANGE(ACTIVE, DRM_MODE_PROP_ATOMIC, "ACTIVE", 1),
    BLOB(MODE_ID, DRM_MODE_PROP_ATOMIC, "MODE_ID"),
    RANGE(OUT_FENCE_PTR, DRM_MODE_PROP_ATOMIC, "OUT_FENCE_PTR", UINT64_MAX),
    OBJECT(FB_ID, "FB_ID", DRM_MODE_OBJECT_FB),
    OBJECT(CRTC_ID, "CRTC_ID", DRM_MODE_OBJECT_CRTC),
    RANGE(SRC_X, DRM_MODE_PROP_ATOMIC, "SRC_X", UINT32_MAX),
    RANGE(SRC_Y, DRM_MODE_PROP_ATOMIC, "SRC_Y", UINT32_MAX),
    RANGE(SRC_W, DRM_MODE_PROP_ATOMIC, "SRC_W", UINT32_MAX),
    RANGE(SRC_H, DRM_MODE_PROP_ATOMIC, "SRC_H", UINT32_MAX),
    SIGNED_RANGE(CRTC_X, "CRTC_X", INT32_MIN),
    SIGNED_RANGE(CRTC_Y, "CRTC_Y", INT32_MIN),
    RANGE(CRTC_W, DRM_MODE_PROP_ATOMIC, "CRTC_W", INT32_MAX),
    RANGE(CRTC_H, DRM_MODE_PROP_ATOMIC, "CRTC_H", INT32_MAX),
    SIGNED_RANGE(IN_FENCE_FD, "IN_FENCE_FD", -1),
    BLOB(GAMMA_LUT, 0, "GAMMA_LUT"),
    RANGE(GAMMA_LUT_SIZE, DRM_MODE_PROP_IMMUTABLE, "GAMMA_LUT_SIZE", UINT32_MAX),
};

_Static_assert(OUT_FENCE_PTR == PROPERTY_OUT_FENCE_PTR && IN_FENCE_FD == PROPERTY_IN_FENCE_FD,
               "front ends know these");

/* The properties that every client sees are first. */
static const enum property_id of_planes[] = {TYPE,   IN_FORMATS, FB_ID, IN_FENCE_FD, CRTC_ID,
                                             SRC_X,  SRC_Y,      SRC_W, SRC_H,       CRTC_X,
                                             CRTC_Y, CRTC_W,     CRTC_H};
static const enum property_id of_crtcs[] = {GAMMA_LUT, GAMMA_LUT_SIZE, ACTIVE, MODE_ID,
                                            OUT_FENCE_PTR};
static const enum property_id of_connectors[] = {DPMS, LINK_STATUS, NON_DESKTOP, CRTC_ID};

static const struct {
    uint32_t kind;
    const enum property_id *ids;
    uint32_t for_all, for_atomic;
} kinds[] = {
    {DRM_MODE_OBJECT_PLANE, of_planes, 2, COUNT(of_planes)},
    {DRM_MODE_OBJECT_CRTC, of_crtcs, 2, COUNT(of_crtcs)},
    {DRM_MODE_OBJECT_CONNECTOR, of_connectors, 3, COUNT(of_connectors)},
};

uint32_t *plane_field(struct plane_state *plane, enum property_id id)
{
    uint32_t *const fields[] = {
        &plane->fb_id, &plane->crtc_id, &plane->src_x,  &plane->src_y,  &plane->src_w,
        &plane->src_h, &plane->crtc_x,  &plane->crtc_y, &plane->crtc_w, &plane->crtc_h,
    };

    return id >= FB_ID && id <= CRTC_H ? fields[id - FB_ID] : NULL;
}

const struct property *property_find(uint32_t id)
{
    return id >= TYPE && id - TYPE < COUNT(properties) ? &properties[id - TYPE] : NULL;
}

const enum property_id *properties_of(uint32_t kind, bool is_atomic, uint32_t *count)
{
    size_t at;

    for (at = 0; at < COUNT(kinds); at++) {
        if (kinds[at].kind == kind) {
            *count = is_atomic ? kinds[at].for_atomic : kinds[at].for_all;
            return kinds[at].ids;
        }
    }
    *count = 0;
    return NULL;
}

bool property_is_of(uint32_t id, uint32_t kind)
{
    uint32_t count, at;
    const enum property_id *ids = properties_of(kind, true, &count);

    for (at = 0; at < count; at++) {
        if (ids[at] == id)
            return true;
    }
    return false;
}

/* Whether an enumeration has a value. */
static bool has_value(const struct property *property, uint64_t value)
{
    uint32_t at;

    for (at = 0; at < property->count; at++) {
        if (property->values[at].value == value)
            return true;
    }
    return false;
}

bool is_gamma(uint32_t blob_id)
{
    uint32_t size;

    blob_bytes(blob_id, &size);
    return size % sizeof(struct drm_color_lut) == 0;
}

bool property_accepts(const struct property *property, uint64_t value)
{
    uint32_t size;

    if (property->flags & DRM_MODE_PROP_IMMUTABLE)
        return false;
    if (property->flags & DRM_MODE_PROP_ENUM)
        return has_value(property, value);
    if (property->flags & DRM_MODE_PROP_BLOB)
        return value == 0 || (value <= UINT32_MAX && blob_bytes((uint32_t)value, &size) != NULL);
    switch (property->flags & DRM_MODE_PROP_EXTENDED_TYPE) {
    case DRM_MODE_PROP_OBJECT:
        return value <= UINT32_MAX;
    case DRM_MODE_PROP_SIGNED_RANGE:
        return (int64_t)value >= (int64_t)property->least
               && (int64_t)value <= (int64_t)property->most;
    default:
        return value >= property->least && value <= property->most;
    }
}
