/* Answers of the core: the driver, its capabilities, masters and magics. */
#include "answers.h"

#include "crtcs.h"

#include <stdlib.h>

int give(uint64_t pointer, uint32_t *room, const void *items, uint32_t count, size_t size)
{
    uint32_t given = *room < count ? *room : count;

    *room = count;
    return copy_to_caller(pointer, items, given * size);
}

int give_text(char *buffer, size_t *room, const char *text)
{
    size_t length = strlen(text), given = *room < length ? *room : length;

    *room = length;
    return buffer == NULL ? 0 : copy_to_caller((uintptr_t)buffer, text, given);
}

/* A program that looks for a driver by its name finds it. */
const char *driver_name(void)
{
    const char *name = getenv("DRM_SERVER_DRIVER");

    return name == NULL || name[0] == '\0' ? "zirkoshe" : name;
}

int answer_version(struct connection *connection, void *argument)
{
    struct drm_version *version = argument;
    struct zirkoshe_version found;
    int failed = zirkoshe_drmGetVersion(&connection->client, &found);

    if (failed)
        return failed;
    version->version_major = (int)found.major_number;
    version->version_minor = (int)found.minor_number;
    version->version_patchlevel = (int)found.patch;
    failed = give_text(version->name, &version->name_len, driver_name());
    if (!failed)
        failed = give_text(version->date, &version->date_len, "0");
    if (!failed)
        failed = give_text(version->desc, &version->desc_len, "Zirkoshe display and buffer server");
    return failed;
}

/* A master's device has no name before SET_VERSION sets it, which the display does not do. */
int answer_get_unique(struct connection *connection, void *argument)
{
    struct drm_unique *unique = argument;

    (void)connection;
    unique->unique_len = 0;
    return 0;
}

/* The caller itself is client 0, and there is no other. A call that requires authentication,
 * with handle 0, reports whether the caller is authenticated. */
int answer_get_client(struct connection *connection, void *argument)
{
    struct drm_client *client = argument;
    uint32_t name;

    if (client->idx != 0)
        return -EINVAL;
    zirkoshe_gem_flink(&connection->client, 0, &name);
    client->auth = connection->client.rule != ZIRKOSHE_RULE_AUTH;
    client->pid = (unsigned long)caller_process();
    client->uid = (unsigned long)caller_user();
    client->magic = 0;
    client->iocs = 0;
    return 0;
}

int answer_nothing(struct connection *connection, void *argument)
{
    (void)connection;
    (void)argument;
    return 0;
}

/* Whether a version that was asked for, -1 for none, is at most this one. */
static bool is_at_most(int major_number, int minor_number, int own_major, int own_minor)
{
    return major_number == -1
           || (major_number == own_major && minor_number >= 0 && minor_number <= own_minor);
}

int answer_set_version(struct connection *connection, void *argument)
{
    struct drm_set_version *version = argument;
    struct zirkoshe_version own;
    int failed = zirkoshe_drmGetVersion(&connection->client, &own);
    bool is_known;

    if (failed)
        return failed;
    is_known = is_at_most(version->drm_di_major, version->drm_di_minor, 1, 4)
               && is_at_most(version->drm_dd_major, version->drm_dd_minor, (int)own.major_number,
                             (int)own.minor_number);
    version->drm_di_major = 1;
    version->drm_di_minor = 4;
    version->drm_dd_major = (int)own.major_number;
    version->drm_dd_minor = (int)own.minor_number;
    return is_known ? 0 : -EINVAL;
}

/* Answers as the core does for capabilities that are not the driver's, or that the driver does
 * not have. */
static int find_core_cap(uint64_t capability, uint64_t *value)
{
    static const struct {
        uint64_t capability, value;
    } known[] = {
        {DRM_CAP_VBLANK_HIGH_CRTC, 1},
        {DRM_CAP_DUMB_PREFERRED_DEPTH, 0},
        {DRM_CAP_DUMB_PREFER_SHADOW, 0},
        {DRM_CAP_TIMESTAMP_MONOTONIC, 1},
        {DRM_CAP_ASYNC_PAGE_FLIP, 0},
        {DRM_CAP_CURSOR_WIDTH, MOST_CURSOR_SIDE},
        {DRM_CAP_CURSOR_HEIGHT, MOST_CURSOR_SIDE},
        {DRM_CAP_ADDFB2_MODIFIERS, 1},
        {DRM_CAP_PAGE_FLIP_TARGET, 0},
        {DRM_CAP_CRTC_IN_VBLANK_EVENT, 1},
        {DRM_CAP_SYNCOBJ, 1},
        {DRM_CAP_SYNCOBJ_TIMELINE, 1},
    };
    size_t at;

    for (at = 0; at < sizeof known / sizeof known[0]; at++) {
        if (known[at].capability == capability) {
            *value = known[at].value;
            return 0;
        }
    }
    return -EINVAL;
}

/* Whether the server knows no such capability. */
static bool is_unknown_cap(const struct connection *connection)
{
    return connection->client.rule == ZIRKOSHE_RULE_BAD_CAP;
}

int answer_get_cap(struct connection *connection, void *argument)
{
    struct drm_get_cap *cap = argument;
    uint64_t value;
    int failed = zirkoshe_drmGetCap(&connection->client, cap->capability, &value);

    if (failed && is_unknown_cap(connection))
        failed = find_core_cap(cap->capability, &value);
    if (!failed)
        cap->value = value;
    return failed;
}

/* Does what the core does with a client capability that the server does not know. No connector has
 * a mode with a stereo layout. */
static int set_core_cap(struct connection *connection, const struct drm_set_client_cap *cap)
{
    if (cap->value > 1)
        return -EINVAL;
    switch (cap->capability) {
    case DRM_CLIENT_CAP_STEREO_3D:
        return 0;
    case DRM_CLIENT_CAP_ASPECT_RATIO:
        connection->has_aspect_ratios = cap->value == 1;
        return 0;
    case DRM_CLIENT_CAP_WRITEBACK_CONNECTORS:
        return connection->is_atomic ? 0 : -EINVAL;
    default:
        return -EINVAL;
    }
}

/* Atomic clients see all planes, and aspect ratios. The core refuses the X server, whose commits
 * are broken. */
static int set_atomic(struct connection *connection, uint64_t value)
{
    int failed;

    if (value == 1 && caller_name_begins('X'))
        return -EOPNOTSUPP;
    if (value > 2)
        return -EINVAL;
    failed =
        zirkoshe_drmSetClientCap(&connection->client, DRM_CLIENT_CAP_UNIVERSAL_PLANES, value != 0);
    if (!failed)
        connection->is_atomic = connection->is_universal = connection->has_aspect_ratios =
            value != 0;
    return failed;
}

int answer_set_client_cap(struct connection *connection, void *argument)
{
    const struct drm_set_client_cap *cap = argument;
    int failed;

    /* the list of planes changes */
    standings_changed();
    if (cap->capability == DRM_CLIENT_CAP_ATOMIC)
        return set_atomic(connection, cap->value);
    failed = zirkoshe_drmSetClientCap(&connection->client, cap->capability, cap->value);
    if (!failed && cap->capability == DRM_CLIENT_CAP_UNIVERSAL_PLANES)
        connection->is_universal = cap->value != 0;
    return failed && is_unknown_cap(connection) ? set_core_cap(connection, cap) : failed;
}

int answer_get_magic(struct connection *connection, void *argument)
{
    struct drm_auth *auth = argument;

    return zirkoshe_drmGetMagic(&connection->client, &auth->magic);
}

int answer_auth_magic(struct connection *connection, void *argument)
{
    const struct drm_auth *auth = argument;

    return zirkoshe_drmAuthMagic(&connection->client, auth->magic);
}

/* What drm_master_check_perm allows: the process that opened the file, and root. (That a file was
 * never master is the server's to know.) */
static bool may_change_master(const struct connection *connection)
{
    return caller_process() == connection->opener || caller_user() == 0;
}

int answer_set_master(struct connection *connection, void *argument)
{
    (void)argument;
    if (!may_change_master(connection))
        return -EACCES;
    /* another master may have changed what is shown */
    crtcs_are_unsure();
    return zirkoshe_drmSetMaster(&connection->client);
}

int answer_drop_master(struct connection *connection, void *argument)
{
    (void)argument;
    if (!may_change_master(connection))
        return -EACCES;
    standings_changed();
    return zirkoshe_drmDropMaster(&connection->client);
}
