/* For tests: requests of clients, buffers, leases and properties that fail. */
#define _GNU_SOURCE
#include "libdrm_errnos.h"

#include <errno.h>
#include <fcntl.h>
#include <stddef.h>
#include <sys/ioctl.h>
#include <sys/wait.h>
#include <unistd.h>

#define NOBODY 65534

static int unknown_request(struct context *context)
{
    uint32_t nothing = 0;

    return ioctl(context->card, DRM_IOWR(0xFF, uint32_t), &nothing);
}

static int null_structure(struct context *context)
{
    return ioctl(context->card, DRM_IOCTL_GET_CAP, NULL);
}

static int unknown_capability(struct context *context)
{
    struct drm_get_cap cap = {.capability = 0x1000};

    return ioctl(context->card, DRM_IOCTL_GET_CAP, &cap);
}

static int client_capability(struct context *context, uint64_t capability, uint64_t value)
{
    struct drm_set_client_cap cap = {capability, value};

    return ioctl(context->card, DRM_IOCTL_SET_CLIENT_CAP, &cap);
}

static int unknown_client_capability(struct context *context)
{
    return client_capability(context, 0x1000, 1);
}

static int stereo_of_2(struct context *context)
{
    return client_capability(context, DRM_CLIENT_CAP_STEREO_3D, 2);
}

static int aspect_ratio_of_2(struct context *context)
{
    return client_capability(context, DRM_CLIENT_CAP_ASPECT_RATIO, 2);
}

static int atomic_of_3(struct context *context)
{
    return client_capability(context, DRM_CLIENT_CAP_ATOMIC, 3);
}

static int writeback_without_atomic(struct context *context)
{
    return client_capability(context, DRM_CLIENT_CAP_WRITEBACK_CONNECTORS, 1);
}

static int version_above(struct context *context)
{
    struct drm_set_version version = {1, 5, -1, -1};

    return ioctl(context->card, DRM_IOCTL_SET_VERSION, &version);
}

static int version_of_a_guest(struct context *context)
{
    struct drm_set_version version = {1, 4, -1, -1};

    return ioctl(context->guest, DRM_IOCTL_SET_VERSION, &version);
}

static int second_client(struct context *context)
{
    struct drm_client client = {.idx = 1};

    return ioctl(context->card, DRM_IOCTL_GET_CLIENT, &client);
}

static int export_flags(struct context *context)
{
    struct drm_prime_handle prime = {.handle = context->handle, .flags = 1};

    return ioctl(context->card, DRM_IOCTL_PRIME_HANDLE_TO_FD, &prime);
}

static int import(struct context *context, int file)
{
    struct drm_prime_handle prime = {.fd = file};

    return ioctl(context->card, DRM_IOCTL_PRIME_FD_TO_HANDLE, &prime);
}

static int import_of_a_closed_descriptor(struct context *context)
{
    return import(context, 1000);
}

static int import_of_another_file(struct context *context)
{
    return import(context, context->guest);
}

static int map(struct context *context, uint32_t handle)
{
    struct drm_mode_map_dumb map = {.handle = handle};

    return ioctl(context->card, DRM_IOCTL_MODE_MAP_DUMB, &map);
}

static int map_of_no_handle(struct context *context)
{
    return map(context, NO_ID);
}

static int write_to_the_node(struct context *context)
{
    return write(context->card, "x", 1) < 0 ? -1 : 0;
}

static int read_without_events(struct context *context)
{
    char room[32];

    return read(context->card, room, sizeof(room)) < 0 ? -1 : 0;
}

static int list_lessees_with_a_pad(struct context *context)
{
    struct drm_mode_list_lessees list = {.pad = 1};

    return ioctl(context->card, DRM_IOCTL_MODE_LIST_LESSEES, &list);
}

static int get_lease_with_a_pad(struct context *context)
{
    struct drm_mode_get_lease lease = {.pad = 1};

    return ioctl(context->card, DRM_IOCTL_MODE_GET_LEASE, &lease);
}

static int lease_flags(struct context *context)
{
    struct drm_mode_create_lease lease = {
        .object_ids = (uintptr_t)context->crtcs, .object_count = 1, .flags = O_APPEND};

    return ioctl(context->card, DRM_IOCTL_MODE_CREATE_LEASE, &lease);
}

static int empty_blob(struct context *context)
{
    struct drm_mode_create_blob blob = {0};

    return ioctl(context->card, DRM_IOCTL_MODE_CREATEPROPBLOB, &blob);
}

static int get_no_blob(struct context *context)
{
    struct drm_mode_get_blob blob = {.blob_id = NO_ID};

    return ioctl(context->card, DRM_IOCTL_MODE_GETPROPBLOB, &blob);
}

static int destroy_no_blob(struct context *context)
{
    struct drm_mode_destroy_blob blob = {NO_ID};

    return ioctl(context->card, DRM_IOCTL_MODE_DESTROYPROPBLOB, &blob);
}

static int destroy_the_blob_of_another(struct context *context)
{
    uint32_t data = 0;
    struct drm_mode_create_blob create = {.data = (uintptr_t)&data, .length = sizeof(data)};
    struct drm_mode_destroy_blob destroy;

    if (ioctl(context->guest, DRM_IOCTL_MODE_CREATEPROPBLOB, &create) != 0)
        return -1;
    destroy.blob_id = create.blob_id;
    return ioctl(context->card, DRM_IOCTL_MODE_DESTROYPROPBLOB, &destroy);
}

static int get_no_property(struct context *context)
{
    struct drm_mode_get_property property = {.prop_id = NO_ID};

    return ioctl(context->card, DRM_IOCTL_MODE_GETPROPERTY, &property);
}

static int properties_of(struct context *context, uint32_t object)
{
    struct drm_mode_obj_get_properties properties = {.obj_id = object};

    return ioctl(context->card, DRM_IOCTL_MODE_OBJ_GETPROPERTIES, &properties);
}

static int properties_of_nothing(struct context *context)
{
    return properties_of(context, NO_ID);
}

static int properties_of_an_encoder(struct context *context)
{
    return properties_of(context, context->encoders[0]);
}

static int set_no_property(struct context *context)
{
    struct drm_mode_obj_set_property set = {.value = 1,
                                            .prop_id = NO_ID,
                                            .obj_id = context->connectors[0],
                                            .obj_type = DRM_MODE_OBJECT_CONNECTOR};

    return ioctl(context->card, DRM_IOCTL_MODE_OBJ_SETPROPERTY, &set);
}

static int set_a_property_of_nothing(struct context *context)
{
    struct drm_mode_obj_set_property set = {.prop_id = NO_ID, .obj_id = NO_ID};

    return ioctl(context->card, DRM_IOCTL_MODE_OBJ_SETPROPERTY, &set);
}

static int set_a_property_of_a_guest(struct context *context)
{
    struct drm_mode_obj_set_property set = {.prop_id = NO_ID, .obj_id = NO_ID};

    return ioctl(context->guest, DRM_IOCTL_MODE_OBJ_SETPROPERTY, &set);
}

static int set_no_property_of_a_connector(struct context *context)
{
    struct drm_mode_connector_set_property set = {.prop_id = NO_ID,
                                                  .connector_id = context->connectors[0]};

    return ioctl(context->card, DRM_IOCTL_MODE_SETPROPERTY, &set);
}

static int mode_call_of_a_render_client(struct context *context)
{
    struct drm_mode_get_blob blob = {.blob_id = NO_ID};

    return ioctl(context->render, DRM_IOCTL_MODE_GETPROPBLOB, &blob);
}

/* By a process that isn't root, and that didn't open the file. */
static int ask_in_a_child(int fd, unsigned long request)
{
    pid_t child = fork();
    int status;

    if (child == 0) {
        if (setresuid(NOBODY, NOBODY, NOBODY) != 0)
            _exit(ENOSYS);
        _exit(ioctl(fd, request, NULL) == 0 ? 0 : errno);
    }
    if (child < 0 || waitpid(child, &status, 0) != child)
        return -1;
    errno = WEXITSTATUS(status);
    return errno == 0 ? 0 : -1;
}

static int drop_master_in_a_child(struct context *context)
{
    return ask_in_a_child(context->card, DRM_IOCTL_DROP_MASTER);
}

static int set_master_in_a_child(struct context *context)
{
    return ask_in_a_child(context->card, DRM_IOCTL_SET_MASTER);
}

const struct trial core_trials[] = {
    {"unknown request", unknown_request},
    {"NULL in place of a structure", null_structure},
    {"GET_CAP, unknown capability", unknown_capability},
    {"SET_CLIENT_CAP, unknown capability", unknown_client_capability},
    {"SET_CLIENT_CAP STEREO_3D, 2", stereo_of_2},
    {"SET_CLIENT_CAP ASPECT_RATIO, 2", aspect_ratio_of_2},
    {"SET_CLIENT_CAP ATOMIC, 3", atomic_of_3},
    {"SET_CLIENT_CAP WRITEBACK_CONNECTORS, without ATOMIC", writeback_without_atomic},
    {"SET_VERSION, 1.5", version_above},
    {"SET_VERSION, not current", version_of_a_guest},
    {"GET_CLIENT, second client", second_client},
    {"DROP_MASTER, child that is not root", drop_master_in_a_child},
    {"SET_MASTER, child that is not root", set_master_in_a_child},
    {"PRIME_HANDLE_TO_FD, other flags", export_flags},
    {"PRIME_FD_TO_HANDLE, descriptor not open", import_of_a_closed_descriptor},
    {"PRIME_FD_TO_HANDLE, descriptor of something else", import_of_another_file},
    {"MODE_MAP_DUMB, no such handle", map_of_no_handle},
    {"write", write_to_the_node},
    {"read, no event", read_without_events},
    {"MODE_LIST_LESSEES, pad not 0", list_lessees_with_a_pad},
    {"MODE_GET_LEASE, pad not 0", get_lease_with_a_pad},
    {"MODE_CREATE_LEASE, other flags", lease_flags},
    {"MODE_CREATEPROPBLOB, no bytes", empty_blob},
    {"MODE_GETPROPBLOB, no such blob", get_no_blob},
    {"MODE_DESTROYPROPBLOB, no such blob", destroy_no_blob},
    {"MODE_DESTROYPROPBLOB, blob of another client", destroy_the_blob_of_another},
    {"MODE_GETPROPERTY, no such property", get_no_property},
    {"MODE_OBJ_GETPROPERTIES, no such object", properties_of_nothing},
    {"MODE_OBJ_GETPROPERTIES, encoder", properties_of_an_encoder},
    {"MODE_OBJ_SETPROPERTY, no such property", set_no_property},
    {"MODE_OBJ_SETPROPERTY, no such object", set_a_property_of_nothing},
    {"MODE_OBJ_SETPROPERTY, not current", set_a_property_of_a_guest},
    {"MODE_SETPROPERTY, no such property", set_no_property_of_a_connector},
    {"MODE_GETPROPBLOB, render client", mode_call_of_a_render_client},
    {NULL, NULL},
};
