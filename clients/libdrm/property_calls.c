/* Answers to requests of properties and of their blobs. */
#include "answers.h"

#include "blobs.h"
#include "properties.h"
#include "states.h"

#include <stdlib.h>

/* The most properties that an object has */
#define MOST_PROPERTIES 16
#define PRIMARY 1
#define CURSOR 2

static bool may_be(uint32_t wanted, uint32_t kind)
{
    return wanted == DRM_MODE_OBJECT_ANY || wanted == kind;
}

/* What kind of object has this id, of those that have properties: the one that is asked for, or
 * any. */
static int find_object(struct connection *connection, uint32_t id, uint32_t wanted, uint32_t *kind)
{
    struct zirkoshe_client *client = &connection->client;
    struct zirkoshe_plane plane;
    uint32_t number;
    int failed = -ENOENT;

    if (may_be(wanted, *kind = DRM_MODE_OBJECT_PLANE))
        failed = zirkoshe_drmModeGetPlane(client, id, &plane);
    if (failed && may_be(wanted, *kind = DRM_MODE_OBJECT_CRTC))
        failed = crtc_look(connection, id, &number);
    if (failed && may_be(wanted, *kind = DRM_MODE_OBJECT_CONNECTOR))
        failed = zirkoshe_drmModeGetConnector(client, id, &number);
    /* an encoder is found, and has no properties */
    if (failed && may_be(wanted, DRM_MODE_OBJECT_ENCODER)
        && zirkoshe_drmModeGetEncoder(client, id, &number) == 0)
        failed = -EINVAL;
    return failed;
}

static uint64_t plane_value(struct plane_state *plane, enum property_id id)
{
    const uint32_t *field = plane_field(plane, id);

    if (id == IN_FORMATS)
        return blob_of_formats();
    if (id == IN_FENCE_FD)
        return UINT64_MAX; /* -1 */
    /* a position is signed */
    return field == NULL ? 0 : id == CRTC_X || id == CRTC_Y ? (uint64_t)(int32_t)*field : *field;
}

/* The value of a CRTC's or a connector's property. Power, link and use of a connector are always
 * the first that there is. */
static uint64_t other_value(struct state *state, uint32_t object_id, uint32_t kind,
                            enum property_id id)
{
    if (kind == DRM_MODE_OBJECT_CONNECTOR)
        return id == CRTC_ID ? state_of_connector(state, object_id)->crtc_id : 0;
    switch (id) {
    case ACTIVE:
        return state_of_crtc(state, object_id)->is_active;
    case MODE_ID:
        return state_of_crtc(state, object_id)->mode_id;
    case GAMMA_LUT:
        return state_of_crtc(state, object_id)->gamma_id;
    default:
        return id == GAMMA_LUT_SIZE ? GAMMA_SIZE : 0;
    }
}

/* The values of an object's properties. */
static int find_values(struct connection *connection, uint32_t object_id, uint32_t kind,
                       const enum property_id *ids, uint32_t count, uint64_t *values)
{
    const struct topology *topology;
    const struct seen_plane *plane = NULL;
    uint32_t at;
    int failed = 0;

    if (kind == DRM_MODE_OBJECT_PLANE) {
        failed = topology_find(connection, &topology);
        plane = failed ? NULL : topology_plane(topology, object_id);
        failed = failed ? failed : plane == NULL ? -ENOENT : 0;
    }
    if (failed)
        return failed;
    for (at = 0; at < count; at++) {
        if (plane == NULL)
            values[at] = other_value(state_now(), object_id, kind, ids[at]);
        else if (ids[at] == TYPE)
            values[at] = plane->primary_of != 0 ? PRIMARY : plane->cursor_of != 0 ? CURSOR : 0;
        else
            values[at] = plane_value(state_of_plane(state_now(), plane), ids[at]);
    }
    return 0;
}

static int give_properties(struct connection *connection, struct drm_mode_obj_get_properties *given,
                           uint32_t kind)
{
    uint32_t count, room = given->count_props;
    const enum property_id *ids = properties_of(kind, connection->is_atomic, &count);
    uint32_t listed[MOST_PROPERTIES], at;
    uint64_t values[MOST_PROPERTIES];
    int failed = find_values(connection, given->obj_id, kind, ids, count, values);

    if (failed)
        return failed;
    for (at = 0; at < count; at++)
        listed[at] = ids[at];
    failed = give(given->props_ptr, &given->count_props, listed, count, sizeof listed[0]);
    return failed ? failed : give(given->prop_values_ptr, &room, values, count, sizeof values[0]);
}

int answer_get_object_properties(struct connection *connection, void *argument)
{
    struct drm_mode_obj_get_properties *given = argument;
    uint32_t kind;
    int failed = find_object(connection, given->obj_id, given->obj_type, &kind);

    return failed ? failed : give_properties(connection, given, kind);
}

int give_connector_properties(struct connection *connection,
                              struct drm_mode_get_connector *connector)
{
    struct drm_mode_obj_get_properties given;
    int failed;

    memset(&given, 0, sizeof given);
    given.obj_id = connector->connector_id;
    given.props_ptr = connector->props_ptr;
    given.prop_values_ptr = connector->prop_values_ptr;
    given.count_props = connector->count_props;
    failed = give_properties(connection, &given, DRM_MODE_OBJECT_CONNECTOR);
    connector->count_props = given.count_props;
    return failed;
}

/* The values that a property's description has: the names' numbers, the ends of a range, or the
 * kind of an object. */
static uint32_t described_values(const struct property *property, uint64_t *values)
{
    uint32_t extended = property->flags & DRM_MODE_PROP_EXTENDED_TYPE, at;

    values[0] = property->least;
    values[1] = property->most;
    for (at = 0; at < property->count; at++)
        values[at] = property->values[at].value;
    if (property->flags & DRM_MODE_PROP_BLOB)
        return 0;
    return property->flags & DRM_MODE_PROP_ENUM ? property->count
           : extended == DRM_MODE_PROP_OBJECT   ? 1
                                                : 2;
}

int answer_get_property(struct connection *connection, void *argument)
{
    struct drm_mode_get_property *asked = argument;
    const struct property *found = property_find(asked->prop_id);
    uint64_t values[4];
    int failed;

    (void)connection;
    if (found == NULL)
        return -ENOENT;
    asked->flags = found->flags;
    memset(asked->name, 0, sizeof asked->name);
    memcpy(asked->name, found->name, strlen(found->name));
    failed = give(asked->values_ptr, &asked->count_values, values, described_values(found, values),
                  sizeof values[0]);
    if (failed)
        return failed;
    return give(asked->enum_blob_ptr, &asked->count_enum_blobs, found->values, found->count,
                sizeof *found->values);
}

/* What the core looks at when a property is set by itself. DPMS and link-status can be set, and
 * change nothing. GAMMA_LUT can be set too. */
static int set_property(struct connection *connection, uint32_t id, uint32_t kind,
                        uint32_t property, uint64_t value)
{
    int failed = find_object(connection, id, kind, &kind);

    if (failed)
        return failed;
    if (!property_is_of(property, kind) || !property_accepts(property_find(property), value))
        return -EINVAL;
    if (property == GAMMA_LUT && is_gamma((uint32_t)value)) {
        state_gamma_is_set(id, (uint32_t)value);
        return 0;
    }
    return property == DPMS || property == LINK_STATUS ? 0 : -EINVAL;
}

int answer_set_object_property(struct connection *connection, void *argument)
{
    const struct drm_mode_obj_set_property *asked = argument;

    return set_property(connection, asked->obj_id, asked->obj_type, asked->prop_id, asked->value);
}

int answer_set_connector_property(struct connection *connection, void *argument)
{
    const struct drm_mode_connector_set_property *asked = argument;

    return set_property(connection, asked->connector_id, DRM_MODE_OBJECT_CONNECTOR, asked->prop_id,
                        asked->value);
}

int answer_create_blob(struct connection *connection, void *argument)
{
    struct drm_mode_create_blob *asked = argument;
    void *bytes;
    int failed;

    if (asked->length == 0 || asked->length > INT32_MAX)
        return -EINVAL;
    bytes = malloc(asked->length);
    if (bytes == NULL)
        return -ENOMEM;
    failed = copy_from_caller(bytes, asked->data, asked->length);
    if (!failed)
        failed = blob_create(connection, bytes, asked->length, &asked->blob_id);
    free(bytes);
    return failed;
}

/* The bytes are returned if there is room for exactly these. */
int answer_get_blob(struct connection *connection, void *argument)
{
    struct drm_mode_get_blob *asked = argument;
    uint32_t room = asked->length;
    const void *bytes = blob_bytes(asked->blob_id, &asked->length);

    (void)connection;
    if (bytes == NULL)
        return -ENOENT;
    return room == asked->length ? copy_to_caller(asked->data, bytes, room) : 0;
}

int answer_destroy_blob(struct connection *connection, void *argument)
{
    const struct drm_mode_destroy_blob *asked = argument;

    return blob_destroy(connection, asked->blob_id);
}
