/* For tests: requests of synchronisation objects. */
#define _GNU_SOURCE
#include "libdrm_errnos.h"

#include <errno.h>
#include <linux/sync_file.h>
#include <stddef.h>
#include <sys/eventfd.h>
#include <sys/ioctl.h>
#include <unistd.h>

#define NO_DESCRIPTOR 1000
#define FOR_SUBMIT DRM_SYNCOBJ_WAIT_FLAGS_WAIT_FOR_SUBMIT
#define AVAILABLE DRM_SYNCOBJ_WAIT_FLAGS_WAIT_AVAILABLE
#define SYNC_FILE DRM_SYNCOBJ_HANDLE_TO_FD_FLAGS_EXPORT_SYNC_FILE

#ifndef DRM_IOCTL_SYNCOBJ_EVENTFD
struct drm_syncobj_eventfd {
    __u32 handle, flags;
    __u64 point;
    __s32 fd;
    __u32 pad;
};
#define DRM_IOCTL_SYNCOBJ_EVENTFD DRM_IOWR(0xCF, struct drm_syncobj_eventfd)
#endif

/* An object without a fence, one that is signaled, and the descriptors of both and of a fence */
static uint32_t empty, signaled;
static int object_file = -1, fence_file = -1;

static int create(struct context *context, uint32_t flags, uint32_t *handle)
{
    struct drm_syncobj_create asked = {.flags = flags};
    int result = ioctl(context->card, DRM_IOCTL_SYNCOBJ_CREATE, &asked);

    *handle = result == 0 ? asked.handle : NO_ID;
    return result;
}

static int create_one(struct context *context)
{
    return create(context, 0, &empty);
}

static int create_signaled(struct context *context)
{
    return create(context, DRM_SYNCOBJ_CREATE_SIGNALED, &signaled);
}

static int create_of_other_flags(struct context *context)
{
    uint32_t handle;

    return create(context, 2, &handle);
}

static int create_by_a_render_client(struct context *context)
{
    struct drm_syncobj_create asked = {.flags = 0};

    return ioctl(context->render, DRM_IOCTL_SYNCOBJ_CREATE, &asked);
}

static int destroy(struct context *context, uint32_t handle, uint32_t pad)
{
    struct drm_syncobj_destroy asked = {handle, pad};

    return ioctl(context->card, DRM_IOCTL_SYNCOBJ_DESTROY, &asked);
}

static int destroy_with_a_pad(struct context *context)
{
    return destroy(context, empty, 1);
}

static int destroy_nothing(struct context *context)
{
    return destroy(context, NO_ID, 0);
}

static int exported(struct context *context, uint32_t handle, uint32_t flags, uint32_t pad,
                    int *file)
{
    struct drm_syncobj_handle asked = {handle, flags, -1, pad};
    int result = ioctl(context->card, DRM_IOCTL_SYNCOBJ_HANDLE_TO_FD, &asked);

    *file = asked.fd;
    return result;
}

static int export_one(struct context *context)
{
    return exported(context, empty, 0, 0, &object_file);
}

static int export_a_fence(struct context *context)
{
    return exported(context, signaled, SYNC_FILE, 0, &fence_file);
}

static int export_no_handle(struct context *context)
{
    int file;

    return exported(context, NO_ID, 0, 0, &file);
}

static int export_a_fence_of_no_handle(struct context *context)
{
    int file;

    return exported(context, NO_ID, SYNC_FILE, 0, &file);
}

static int export_no_fence(struct context *context)
{
    int file;

    return exported(context, empty, SYNC_FILE, 0, &file);
}

static int export_of_other_flags(struct context *context)
{
    int file;

    return exported(context, empty, 4, 0, &file);
}

static int export_with_a_pad(struct context *context)
{
    int file;

    return exported(context, empty, 0, 1, &file);
}

static int import(struct context *context, int file, uint32_t flags, uint32_t handle)
{
    struct drm_syncobj_handle asked = {handle, flags, file, 0};

    return ioctl(context->card, DRM_IOCTL_SYNCOBJ_FD_TO_HANDLE, &asked);
}

static int import_one(struct context *context)
{
    return import(context, object_file, 0, 0);
}

static int import_of_a_fence(struct context *context)
{
    return import(context, fence_file, 0, 0);
}

static int import_of_no_descriptor(struct context *context)
{
    return import(context, NO_DESCRIPTOR, 0, 0);
}

static int import_of_a_node(struct context *context)
{
    return import(context, context->guest, 0, 0);
}

static int import_of_other_flags(struct context *context)
{
    return import(context, object_file, 4, 0);
}

static int import_a_fence_of_an_object(struct context *context)
{
    return import(context, object_file, SYNC_FILE, empty);
}

static int import_a_fence_of_no_descriptor(struct context *context)
{
    return import(context, NO_DESCRIPTOR, SYNC_FILE, empty);
}

static int import_a_fence_for_no_handle(struct context *context)
{
    return import(context, fence_file, SYNC_FILE, NO_ID);
}

static int import_a_fence(struct context *context)
{
    return import(context, fence_file, SYNC_FILE, empty);
}

static int wait_of(struct context *context, const uint32_t *handles, uint32_t count, uint32_t flags)
{
    struct drm_syncobj_wait asked = {
        .handles = (uintptr_t)handles, .count_handles = count, .flags = flags};

    return ioctl(context->card, DRM_IOCTL_SYNCOBJ_WAIT, &asked);
}

static int wait_for_nothing(struct context *context)
{
    return wait_of(context, &empty, 0, 0);
}

static int wait_of_other_flags(struct context *context)
{
    return wait_of(context, &signaled, 1, 0x100);
}

static int wait_for_available(struct context *context)
{
    return wait_of(context, &signaled, 1, AVAILABLE);
}

static int wait_without_a_fence(struct context *context)
{
    return wait_of(context, &empty, 1, 0);
}

static int wait_for_submit(struct context *context)
{
    return wait_of(context, &empty, 1, FOR_SUBMIT);
}

static int wait_for_signaled(struct context *context)
{
    return wait_of(context, &signaled, 1, 0);
}

static int wait_for_no_handle(struct context *context)
{
    const uint32_t handles[] = {signaled, NO_ID};

    return wait_of(context, handles, 2, 0);
}

static int wait_at_a_wrong_address(struct context *context)
{
    return wait_of(context, NULL, 1, 0);
}

static int timeline_wait(struct context *context, uint32_t handle, uint64_t point, uint32_t flags)
{
    struct drm_syncobj_timeline_wait asked = {.handles = (uintptr_t)&handle,
                                              .points = (uintptr_t)&point,
                                              .count_handles = 1,
                                              .flags = flags};

    return ioctl(context->card, DRM_IOCTL_SYNCOBJ_TIMELINE_WAIT, &asked);
}

static int wait_for_a_point(struct context *context)
{
    return timeline_wait(context, signaled, 5, 0);
}

static int wait_for_a_point_above(struct context *context)
{
    return timeline_wait(context, signaled, 6, 0);
}

static int wait_for_a_point_to_be_submitted(struct context *context)
{
    return timeline_wait(context, signaled, 6, AVAILABLE);
}

static int wait_for_a_point_of_other_flags(struct context *context)
{
    return timeline_wait(context, signaled, 5, 0x100);
}

static int on_array(struct context *context, unsigned long request, uint32_t handle, uint32_t count,
                    uint32_t pad)
{
    struct drm_syncobj_array asked = {(uintptr_t)&handle, count, pad};

    return ioctl(context->card, request, &asked);
}

static int reset(struct context *context)
{
    return on_array(context, DRM_IOCTL_SYNCOBJ_RESET, empty, 1, 0);
}

static int reset_nothing(struct context *context)
{
    return on_array(context, DRM_IOCTL_SYNCOBJ_RESET, empty, 0, 0);
}

static int reset_with_a_pad(struct context *context)
{
    return on_array(context, DRM_IOCTL_SYNCOBJ_RESET, empty, 1, 1);
}

static int reset_no_handle(struct context *context)
{
    return on_array(context, DRM_IOCTL_SYNCOBJ_RESET, NO_ID, 1, 0);
}

static int signal_nothing(struct context *context)
{
    return on_array(context, DRM_IOCTL_SYNCOBJ_SIGNAL, empty, 0, 0);
}

static int signal_no_handle(struct context *context)
{
    return on_array(context, DRM_IOCTL_SYNCOBJ_SIGNAL, NO_ID, 1, 0);
}

static int on_points(struct context *context, unsigned long request, uint32_t handle,
                     uint32_t count, uint32_t flags)
{
    uint64_t point = 5;
    struct drm_syncobj_timeline_array asked = {(uintptr_t)&handle, (uintptr_t)&point, count, flags};

    return ioctl(context->card, request, &asked);
}

static int signal_a_point(struct context *context)
{
    return on_points(context, DRM_IOCTL_SYNCOBJ_TIMELINE_SIGNAL, signaled, 1, 0);
}

static int signal_no_points(struct context *context)
{
    return on_points(context, DRM_IOCTL_SYNCOBJ_TIMELINE_SIGNAL, signaled, 0, 0);
}

static int signal_a_point_of_other_flags(struct context *context)
{
    return on_points(context, DRM_IOCTL_SYNCOBJ_TIMELINE_SIGNAL, signaled, 1, 1);
}

static int signal_a_point_of_no_handle(struct context *context)
{
    return on_points(context, DRM_IOCTL_SYNCOBJ_TIMELINE_SIGNAL, NO_ID, 1, 0);
}

static int query(struct context *context)
{
    return on_points(context, DRM_IOCTL_SYNCOBJ_QUERY, empty, 1, 0);
}

static int query_nothing(struct context *context)
{
    return on_points(context, DRM_IOCTL_SYNCOBJ_QUERY, empty, 0, 0);
}

static int query_of_other_flags(struct context *context)
{
    return on_points(context, DRM_IOCTL_SYNCOBJ_QUERY, empty, 1, 2);
}

static int query_at_a_wrong_address(struct context *context)
{
    struct drm_syncobj_timeline_array asked = {(uintptr_t)&empty, 0, 1, 0};

    return ioctl(context->card, DRM_IOCTL_SYNCOBJ_QUERY, &asked);
}

static int transfer(struct context *context, struct drm_syncobj_transfer asked)
{
    return ioctl(context->card, DRM_IOCTL_SYNCOBJ_TRANSFER, &asked);
}

static int transfer_a_point(struct context *context)
{
    return transfer(context, (struct drm_syncobj_transfer){signaled, empty, 5, 2, 0, 0});
}

static int transfer_no_point(struct context *context)
{
    return transfer(context, (struct drm_syncobj_transfer){signaled, empty, 9, 2, 0, 0});
}

static int transfer_with_a_pad(struct context *context)
{
    return transfer(context, (struct drm_syncobj_transfer){signaled, empty, 5, 2, 0, 1});
}

static int transfer_from_no_handle(struct context *context)
{
    return transfer(context, (struct drm_syncobj_transfer){NO_ID, empty, 0, 0, 0, 0});
}

static int transfer_to_no_handle(struct context *context)
{
    return transfer(context, (struct drm_syncobj_transfer){signaled, NO_ID, 0, 0, 0, 0});
}

static int eventfd_of(struct context *context, uint32_t handle, uint32_t flags, int file)
{
    struct drm_syncobj_eventfd asked = {.handle = handle, .flags = flags, .point = 1, .fd = file};

    return ioctl(context->card, DRM_IOCTL_SYNCOBJ_EVENTFD, &asked);
}

static int eventfd_is_given(struct context *context)
{
    int file = eventfd(0, EFD_CLOEXEC), result = eventfd_of(context, signaled, 0, file);

    close(file);
    return result;
}

static int eventfd_of_other_flags(struct context *context)
{
    return eventfd_of(context, signaled, 1, object_file);
}

static int eventfd_of_no_handle(struct context *context)
{
    return eventfd_of(context, NO_ID, 0, object_file);
}

static int eventfd_of_another_file(struct context *context)
{
    return eventfd_of(context, signaled, 0, object_file);
}

static int eventfd_of_no_descriptor(struct context *context)
{
    return eventfd_of(context, signaled, 0, NO_DESCRIPTOR);
}

static int merge(int file, uint32_t flags)
{
    struct sync_merge_data asked = {.fd2 = file, .flags = flags};

    return ioctl(fence_file, SYNC_IOC_MERGE, &asked);
}

static int merge_two(struct context *context)
{
    (void)context;
    return merge(fence_file, 0);
}

static int merge_with_flags(struct context *context)
{
    (void)context;
    return merge(fence_file, 1);
}

static int merge_with_an_object(struct context *context)
{
    (void)context;
    return merge(object_file, 0);
}

static int merge_with_no_descriptor(struct context *context)
{
    (void)context;
    return merge(NO_DESCRIPTOR, 0);
}

static int info_of_a_fence(struct context *context)
{
    struct sync_file_info asked = {.pad = 0};

    (void)context;
    return ioctl(fence_file, SYNC_IOC_FILE_INFO, &asked);
}

static int info_with_a_pad(struct context *context)
{
    struct sync_file_info asked = {.pad = 1};

    (void)context;
    return ioctl(fence_file, SYNC_IOC_FILE_INFO, &asked);
}

static int info_at_a_wrong_address(struct context *context)
{
    struct sync_file_info asked = {.num_fences = 1};

    (void)context;
    return ioctl(fence_file, SYNC_IOC_FILE_INFO, &asked);
}

static int info_of_an_object(struct context *context)
{
    struct sync_file_info asked = {.pad = 0};

    (void)context;
    return ioctl(object_file, SYNC_IOC_FILE_INFO, &asked);
}

static int another_request_on_a_fence(struct context *context)
{
    (void)context;
    return ioctl(fence_file, _IOW(SYNC_IOC_MAGIC, 9, int), &empty);
}

const struct trial sync_trials[] = {
    {"SYNCOBJ_CREATE", create_one},
    {"SYNCOBJ_CREATE, signaled", create_signaled},
    {"SYNCOBJ_CREATE, other flags", create_of_other_flags},
    {"SYNCOBJ_CREATE, render client", create_by_a_render_client},
    {"SYNCOBJ_DESTROY, pad not 0", destroy_with_a_pad},
    {"SYNCOBJ_DESTROY, no such handle", destroy_nothing},
    {"SYNCOBJ_HANDLE_TO_FD", export_one},
    {"SYNCOBJ_HANDLE_TO_FD, sync_file", export_a_fence},
    {"SYNCOBJ_HANDLE_TO_FD, no such handle", export_no_handle},
    {"SYNCOBJ_HANDLE_TO_FD, sync_file of no handle", export_a_fence_of_no_handle},
    {"SYNCOBJ_HANDLE_TO_FD, sync_file without a fence", export_no_fence},
    {"SYNCOBJ_HANDLE_TO_FD, other flags", export_of_other_flags},
    {"SYNCOBJ_HANDLE_TO_FD, pad not 0", export_with_a_pad},
    {"SYNCOBJ_FD_TO_HANDLE", import_one},
    {"SYNCOBJ_FD_TO_HANDLE, descriptor of a fence", import_of_a_fence},
    {"SYNCOBJ_FD_TO_HANDLE, descriptor not open", import_of_no_descriptor},
    {"SYNCOBJ_FD_TO_HANDLE, descriptor of something else", import_of_a_node},
    {"SYNCOBJ_FD_TO_HANDLE, other flags", import_of_other_flags},
    {"SYNCOBJ_FD_TO_HANDLE, sync_file, descriptor of an object", import_a_fence_of_an_object},
    {"SYNCOBJ_FD_TO_HANDLE, sync_file, descriptor not open", import_a_fence_of_no_descriptor},
    {"SYNCOBJ_FD_TO_HANDLE, sync_file, no such handle", import_a_fence_for_no_handle},
    {"SYNCOBJ_WAIT, no handles", wait_for_nothing},
    {"SYNCOBJ_WAIT, other flags", wait_of_other_flags},
    {"SYNCOBJ_WAIT, WAIT_AVAILABLE", wait_for_available},
    {"SYNCOBJ_WAIT, without a fence", wait_without_a_fence},
    {"SYNCOBJ_WAIT, WAIT_FOR_SUBMIT", wait_for_submit},
    {"SYNCOBJ_WAIT, signaled", wait_for_signaled},
    {"SYNCOBJ_WAIT, no such handle", wait_for_no_handle},
    {"SYNCOBJ_WAIT, NULL", wait_at_a_wrong_address},
    {"SYNCOBJ_TIMELINE_SIGNAL, point 5", signal_a_point},
    {"SYNCOBJ_TIMELINE_SIGNAL, no handles", signal_no_points},
    {"SYNCOBJ_TIMELINE_SIGNAL, flags", signal_a_point_of_other_flags},
    {"SYNCOBJ_TIMELINE_SIGNAL, no such handle", signal_a_point_of_no_handle},
    {"SYNCOBJ_TIMELINE_WAIT, point 5", wait_for_a_point},
    {"SYNCOBJ_TIMELINE_WAIT, point 6", wait_for_a_point_above},
    {"SYNCOBJ_TIMELINE_WAIT, point 6, WAIT_AVAILABLE", wait_for_a_point_to_be_submitted},
    {"SYNCOBJ_TIMELINE_WAIT, other flags", wait_for_a_point_of_other_flags},
    {"SYNCOBJ_FD_TO_HANDLE, sync_file", import_a_fence},
    {"SYNCOBJ_RESET", reset},
    {"SYNCOBJ_RESET, no handles", reset_nothing},
    {"SYNCOBJ_RESET, pad not 0", reset_with_a_pad},
    {"SYNCOBJ_RESET, no such handle", reset_no_handle},
    {"SYNCOBJ_SIGNAL, no handles", signal_nothing},
    {"SYNCOBJ_SIGNAL, no such handle", signal_no_handle},
    {"SYNCOBJ_QUERY", query},
    {"SYNCOBJ_QUERY, no handles", query_nothing},
    {"SYNCOBJ_QUERY, other flags", query_of_other_flags},
    {"SYNCOBJ_QUERY, NULL", query_at_a_wrong_address},
    {"SYNCOBJ_TRANSFER", transfer_a_point},
    {"SYNCOBJ_TRANSFER, no such point", transfer_no_point},
    {"SYNCOBJ_TRANSFER, pad not 0", transfer_with_a_pad},
    {"SYNCOBJ_TRANSFER, from no handle", transfer_from_no_handle},
    {"SYNCOBJ_TRANSFER, to no handle", transfer_to_no_handle},
    {"SYNCOBJ_EVENTFD", eventfd_is_given},
    {"SYNCOBJ_EVENTFD, other flags", eventfd_of_other_flags},
    {"SYNCOBJ_EVENTFD, no such handle", eventfd_of_no_handle},
    {"SYNCOBJ_EVENTFD, descriptor of something else", eventfd_of_another_file},
    {"SYNCOBJ_EVENTFD, descriptor not open", eventfd_of_no_descriptor},
    {"SYNC_IOC_MERGE", merge_two},
    {"SYNC_IOC_MERGE, flags", merge_with_flags},
    {"SYNC_IOC_MERGE, descriptor of an object", merge_with_an_object},
    {"SYNC_IOC_MERGE, descriptor not open", merge_with_no_descriptor},
    {"SYNC_IOC_FILE_INFO", info_of_a_fence},
    {"SYNC_IOC_FILE_INFO, pad not 0", info_with_a_pad},
    {"SYNC_IOC_FILE_INFO, list at NULL", info_at_a_wrong_address},
    {"SYNC_IOC_FILE_INFO, descriptor of an object", info_of_an_object},
    {"sync_file, unknown request", another_request_on_a_fence},
    {NULL, NULL},
};
