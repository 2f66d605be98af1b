/* Answers to requests of synchronisation objects, by the rules of the core. */
#include "answers.h"

#include "ioctls.h"
#include "proxies.h"
#include "waits.h"

#include <stdlib.h>

/* How long TRANSFER waits for a fence that is still to be submitted, as the core does */
#define MOST_WAIT_FOR_SUBMIT ((int64_t)5 * SECOND)

int answer_syncobj_create(struct connection *connection, void *argument)
{
    struct drm_syncobj_create *asked = argument;
    bool is_signaled = (asked->flags & DRM_SYNCOBJ_CREATE_SIGNALED) != 0;
    struct syncobj *made;
    struct fence *fence;
    int failed;

    if (asked->flags & ~(uint32_t)DRM_SYNCOBJ_CREATE_SIGNALED)
        return -EINVAL;
    made = syncobj_make(caller_user());
    fence = is_signaled ? fence_signaled_now(caller_user()) : NULL;
    if (made != NULL && fence != NULL)
        syncobj_set(made, fence);
    failed = made == NULL || (is_signaled && fence == NULL)
                 ? -ENOMEM
                 : syncobjs_add(connection, made, &asked->handle);
    if (failed && made != NULL)
        syncobj_drop(made);
    return failed;
}

int answer_syncobj_destroy(struct connection *connection, void *argument)
{
    const struct drm_syncobj_destroy *asked = argument;

    return asked->pad == 0 && syncobjs_close(connection, asked->handle) ? 0 : -EINVAL;
}

int answer_syncobj_export(struct connection *connection, void *argument)
{
    struct drm_syncobj_handle *asked = argument;
    struct syncobj *object = syncobjs_find(connection, asked->handle);
    bool is_sync_file = asked->flags == DRM_SYNCOBJ_HANDLE_TO_FD_FLAGS_EXPORT_SYNC_FILE;
    int made;

    if (asked->pad != 0 || (asked->flags != 0 && !is_sync_file))
        return -EINVAL;
    if (object == NULL)
        return is_sync_file ? -ENOENT : -EINVAL;
    if (is_sync_file && syncobj_fence(object) == NULL)
        return -EINVAL;
    made = is_sync_file ? proxy_of_fence(syncobj_fence(object), "") : proxy_of_syncobj(object);
    return made < 0 ? made : outcome_has(made);
}

static int import_fence(const struct connection *connection, uint32_t handle)
{
    struct fence *fence = fence_of_descriptor(caller_descriptor(0));
    struct syncobj *object = syncobjs_find(connection, handle);

    if (fence == NULL || object == NULL)
        return fence == NULL ? -EINVAL : -ENOENT;
    syncobj_set(object, fence_use(fence));
    return 0;
}

int answer_syncobj_import(struct connection *connection, void *argument)
{
    struct drm_syncobj_handle *asked = argument;
    struct syncobj *object;
    int failed;

    if (asked->pad != 0
        || (asked->flags & ~(uint32_t)DRM_SYNCOBJ_FD_TO_HANDLE_FLAGS_IMPORT_SYNC_FILE))
        return -EINVAL;
    if (asked->flags != 0)
        return import_fence(connection, asked->handle);
    object = syncobj_of_descriptor(caller_descriptor(0));
    if (object == NULL)
        return -EINVAL;
    failed = syncobjs_add(connection, syncobj_use(object), &asked->handle);
    if (failed)
        syncobj_drop(object);
    return failed;
}

/* Reads a list of the caller's; NULL with an errno in `failed`. */
static void *read_list(uint64_t address, uint32_t count, size_t size, int *failed)
{
    void *list = count <= MOST_AWAITED ? calloc(count, size) : NULL;

    *failed = list == NULL ? -ENOMEM : copy_from_caller(list, address, count * size);
    if (*failed) {
        free(list);
        return NULL;
    }
    return list;
}

struct syncobj **find_objects(const struct connection *connection, uint64_t address, uint32_t count,
                              int *failed)
{
    uint32_t *handles = read_list(address, count, sizeof *handles, failed), at;
    struct syncobj **objects = handles == NULL ? NULL : calloc(count, sizeof *objects);

    if (handles != NULL && objects == NULL)
        *failed = -ENOMEM;
    for (at = 0; objects != NULL && !*failed && at < count; at++) {
        objects[at] = syncobjs_find(connection, handles[at]);
        *failed = objects[at] == NULL ? -ENOENT : 0;
    }
    free(handles);
    if (*failed) {
        free(objects);
        return NULL;
    }
    return objects;
}

uint64_t *find_points(uint64_t address, uint32_t count, int *failed)
{
    uint64_t *points;

    if (address != 0)
        return read_list(address, count, sizeof *points, failed);
    points = calloc(count, sizeof *points);
    *failed = points == NULL ? -ENOMEM : 0;
    return points;
}

/* Sets the fences of objects to what each makes, or to none. */
static int set_all(const struct connection *connection, const struct drm_syncobj_array *asked,
                   bool signals)
{
    struct syncobj **objects;
    uint32_t at;
    int failed;

    if (asked->pad != 0 || asked->count_handles == 0)
        return -EINVAL;
    objects = find_objects(connection, asked->handles, asked->count_handles, &failed);
    for (at = 0; !failed && at < asked->count_handles; at++) {
        struct fence *fence = signals ? fence_signaled_now(caller_user()) : NULL;

        failed = signals && fence == NULL ? -ENOMEM : 0;
        if (!failed)
            syncobj_set(objects[at], fence);
    }
    free(objects);
    return failed;
}

int answer_syncobj_reset(struct connection *connection, void *argument)
{
    return set_all(connection, argument, false);
}

int answer_syncobj_signal(struct connection *connection, void *argument)
{
    return set_all(connection, argument, true);
}

/* Adds a point to a timeline, whose fence is used by it alone. */
static int add_point(struct syncobj *object, struct fence *fence, uint64_t point)
{
    int failed = fence == NULL ? -ENOMEM : syncobj_add_point(caller_user(), object, fence, point);

    if (failed)
        fence_drop(fence);
    return failed;
}

int answer_syncobj_timeline_signal(struct connection *connection, void *argument)
{
    const struct drm_syncobj_timeline_array *asked = argument;
    uint32_t count = asked->count_handles, at;
    struct syncobj **objects;
    uint64_t *points = NULL;
    int failed;

    if (asked->flags != 0 || count == 0)
        return -EINVAL;
    objects = find_objects(connection, asked->handles, count, &failed);
    if (!failed)
        points = find_points(asked->points, count, &failed);
    for (at = 0; !failed && at < count; at++)
        failed = add_point(objects[at], fence_signaled_now(caller_user()), points[at]);
    free(objects);
    free(points);
    return failed;
}

static uint64_t point_of(const struct syncobj *object, uint32_t flags)
{
    return flags & DRM_SYNCOBJ_QUERY_FLAGS_LAST_SUBMITTED
               ? fence_last_point(syncobj_fence(object))
               : fence_signaled_point(syncobj_fence(object));
}

int answer_syncobj_query(struct connection *connection, void *argument)
{
    const struct drm_syncobj_timeline_array *asked = argument;
    uint32_t count = asked->count_handles, at;
    struct syncobj **objects;
    uint64_t *points = NULL;
    int failed;

    if ((asked->flags & ~(uint32_t)DRM_SYNCOBJ_QUERY_FLAGS_LAST_SUBMITTED) || count == 0)
        return -EINVAL;
    objects = find_objects(connection, asked->handles, count, &failed);
    if (!failed)
        points = find_points(0, count, &failed);
    for (at = 0; !failed && at < count; at++)
        points[at] = point_of(objects[at], asked->flags);
    if (!failed)
        failed = copy_to_caller(asked->points, points, count * sizeof *points);
    free(objects);
    free(points);
    return failed;
}

/* The fence of a point, of which this is a new use. If it isn't submitted yet, the caller may wait
 * for it and ask again. */
static int find_fence(const struct drm_syncobj_transfer *asked, struct syncobj *object,
                      struct fence **fence)
{
    int64_t until = time_now() + MOST_WAIT_FOR_SUBMIT;

    if (fence_find_point(syncobj_fence(object), asked->src_point, fence)) {
        *fence = *fence == NULL ? fence_signaled_now(caller_user()) : fence_use(*fence);
        return *fence == NULL ? -ENOMEM : 0;
    }
    return asked->flags & DRM_SYNCOBJ_WAIT_FLAGS_WAIT_FOR_SUBMIT
               ? wait_for_submit(object, asked->src_point, until)
               : -EINVAL;
}

static int transfer(struct syncobj *object, struct fence *fence, uint64_t point)
{
    int failed;

    if (point == 0) {
        syncobj_set(object, fence);
        return 0;
    }
    failed = add_point(object, fence_of_two(caller_user(), fence, NULL), point);
    fence_drop(fence);
    return failed;
}

int answer_syncobj_transfer(struct connection *connection, void *argument)
{
    const struct drm_syncobj_transfer *asked = argument;
    struct syncobj *to = syncobjs_find(connection, asked->dst_handle);
    struct syncobj *from = syncobjs_find(connection, asked->src_handle);
    struct fence *fence;
    int failed;

    if (asked->pad != 0)
        return -EINVAL;
    if (to == NULL)
        return -ENOENT;
    if (asked->flags & ~(uint32_t)DRM_SYNCOBJ_WAIT_FLAGS_WAIT_FOR_SUBMIT)
        return -EINVAL;
    if (from == NULL)
        return -ENOENT;
    failed = find_fence(asked, from, &fence);
    return failed ? failed : transfer(to, fence, asked->dst_point);
}
