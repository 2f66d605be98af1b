/* Waits for synchronisation objects, as drm_syncobj_array_wait_timeout of the core. The waiting
 * thread receives the answer on a descriptor. */
#include "answers.h"

#include "budgets.h"
#include "ioctls.h"
#include "proxies.h"
#include "waits.h"

#include <stdlib.h>

#define KNOWN_FLAGS                                                                                \
    ((uint32_t)(DRM_SYNCOBJ_WAIT_FLAGS_WAIT_ALL | DRM_SYNCOBJ_WAIT_FLAGS_WAIT_FOR_SUBMIT           \
                | DRM_SYNCOBJ_WAIT_FLAGS_WAIT_DEADLINE))
/* The size of the larger struct */
#define MOST_ARGUMENT sizeof(struct drm_syncobj_timeline_wait)

struct entry {
    struct awaiting awaiting;
    struct wait *wait;
};

struct wait {
    struct proxy *proxy;
    uid_t user;
    bool is_over, is_for_all;
    uint32_t count, left; /* of entries, of which so many are to come */
    uint8_t argument[MOST_ARGUMENT];
    size_t size, first_at; /* of the struct, and where it has which came first */
    struct entry entries[];
};

/* What a request waits for */
struct asked {
    struct syncobj **objects;
    uint64_t *points;
    uint32_t count, flags;
    int64_t until;
};

static bool has_come(struct point point, uint32_t flags)
{
    return point.has_fence
           && (point.is_signaled || (flags & DRM_SYNCOBJ_WAIT_FLAGS_WAIT_AVAILABLE));
}

/* Counts what has come. Without a flag, it is wrong to wait for what isn't submitted. */
static int count_come(const struct asked *asked, uint32_t *count, uint32_t *first)
{
    const uint32_t waits =
        DRM_SYNCOBJ_WAIT_FLAGS_WAIT_FOR_SUBMIT | DRM_SYNCOBJ_WAIT_FLAGS_WAIT_AVAILABLE;
    uint32_t at;

    *count = 0;
    *first = UINT32_MAX;
    for (at = 0; at < asked->count; at++) {
        struct point point = syncobj_point(asked->objects[at], asked->points[at]);

        if (!point.has_fence && !(asked->flags & waits))
            return -EINVAL;
        if (!has_come(point, asked->flags))
            continue;
        *first = *count == 0 ? at : *first;
        ++*count;
    }
    return 0;
}

void wait_end(struct wait *wait)
{
    uint32_t at;

    for (at = 0; at < wait->count; at++) {
        syncobj_await_no_more(&wait->entries[at].awaiting);
        if (wait->entries[at].awaiting.object != NULL)
            syncobj_drop(wait->entries[at].awaiting.object);
    }
    budget_give(wait->user, wait->count);
    free(wait);
}

static void entry_has_come(struct awaiting *awaiting)
{
    struct entry *entry = (struct entry *)awaiting;
    struct wait *wait = entry->wait;
    uint32_t first = (uint32_t)(entry - wait->entries);

    if (wait->is_over || --wait->left > 0)
        return;
    if (!wait->is_for_all)
        memcpy(wait->argument + wait->first_at, &first, sizeof first);
    wait->is_over = true;
    proxy_answer(wait->proxy, wait->argument, wait->size);
}

/* Makes a wait for what has not come yet. */
static struct wait *make(const struct asked *asked)
{
    struct wait *made = budget_take(caller_user(), asked->count)
                            ? calloc(1, sizeof *made + asked->count * sizeof made->entries[0])
                            : NULL;
    uint32_t at;

    if (made == NULL)
        return NULL;
    made->user = caller_user();
    made->count = asked->count;
    made->is_for_all = (asked->flags & DRM_SYNCOBJ_WAIT_FLAGS_WAIT_ALL) != 0;
    for (at = 0; at < asked->count; at++) {
        struct entry *entry = &made->entries[at];

        entry->wait = made;
        entry->awaiting.object = syncobj_use(asked->objects[at]);
        entry->awaiting.point = asked->points[at];
        entry->awaiting.is_for_fence = (asked->flags & DRM_SYNCOBJ_WAIT_FLAGS_WAIT_AVAILABLE) != 0;
        entry->awaiting.run = entry_has_come;
        made->left += syncobj_await(&entry->awaiting);
    }
    made->left = made->is_for_all ? made->left : 1;
    return made;
}

/* Lets the caller wait on a descriptor. */
static int let_wait(const struct asked *asked, struct wait **made)
{
    int fd;

    *made = NULL;
    if (asked->until <= time_now())
        return -ETIME;
    *made = make(asked);
    if (*made == NULL)
        return -ENOMEM;
    fd = proxy_of_wait(*made, &(*made)->proxy);
    if (fd < 0) {
        wait_end(*made);
        return fd;
    }
    outcome_has(fd);
    outcome()->is_awaited = true;
    outcome()->until = asked->until;
    return -ETIME;
}

int wait_for_submit(struct syncobj *object, uint64_t point, int64_t until)
{
    struct asked asked = {&object, &point, 1, DRM_SYNCOBJ_WAIT_FLAGS_WAIT_AVAILABLE, until};
    struct wait *made;
    int failed = let_wait(&asked, &made);

    outcome()->is_again = outcome()->is_awaited;
    return failed;
}

/* Waits for objects. The struct of the request gets which came first. */
static int wait_for(const struct asked *asked, void *argument, size_t size, size_t first_at)
{
    uint32_t count, first;
    struct wait *made;
    int failed = count_come(asked, &count, &first);

    if (failed)
        return failed;
    if (count == asked->count || (count > 0 && !(asked->flags & DRM_SYNCOBJ_WAIT_FLAGS_WAIT_ALL))) {
        memcpy((uint8_t *)argument + first_at, &first, sizeof first);
        return 0;
    }
    failed = let_wait(asked, &made);
    if (outcome()->is_awaited) {
        memcpy(made->argument, argument, size);
        memcpy(made->argument + first_at, &first, sizeof first);
        made->size = size;
        made->first_at = first_at;
    }
    return failed;
}

static int find_and_wait(struct connection *connection, uint64_t handles, uint64_t points,
                         struct asked *asked, void *argument, size_t size, size_t first_at)
{
    int failed;

    if (asked->count == 0)
        return 0;
    asked->objects = find_objects(connection, handles, asked->count, &failed);
    if (!failed)
        asked->points = find_points(points, asked->count, &failed);
    if (!failed)
        failed = wait_for(asked, argument, size, first_at);
    free(asked->objects);
    free(asked->points);
    return failed;
}

int answer_syncobj_wait(struct connection *connection, void *argument)
{
    struct drm_syncobj_wait *wait = argument;
    struct asked asked = {NULL, NULL, wait->count_handles, wait->flags, wait->timeout_nsec};

    if (wait->flags & ~KNOWN_FLAGS)
        return -EINVAL;
    return find_and_wait(connection, wait->handles, 0, &asked, wait, sizeof *wait,
                         offsetof(struct drm_syncobj_wait, first_signaled));
}

int answer_syncobj_timeline_wait(struct connection *connection, void *argument)
{
    struct drm_syncobj_timeline_wait *wait = argument;
    struct asked asked = {NULL, NULL, wait->count_handles, wait->flags, wait->timeout_nsec};

    if (wait->flags & ~(KNOWN_FLAGS | DRM_SYNCOBJ_WAIT_FLAGS_WAIT_AVAILABLE))
        return -EINVAL;
    return find_and_wait(connection, wait->handles, wait->points, &asked, wait, sizeof *wait,
                         offsetof(struct drm_syncobj_timeline_wait, first_signaled));
}
