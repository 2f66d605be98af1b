/* Synchronisation objects, and their handles. */
#include "syncobjs.h"

#include "budgets.h"
#include "connections.h"

#include <stdlib.h>

#define FIRST_PLACES 16
/* of a connection */
#define MOST_HANDLES 16384

struct syncobj {
    unsigned uses;
    uid_t user;
    struct fence *fence;
    struct awaiting *awaiting; /* what waits for a fence */
};

struct syncobj *syncobj_make(uid_t user)
{
    struct syncobj *made = budget_take(user, 1) ? calloc(1, sizeof *made) : NULL;

    if (made == NULL)
        return NULL;
    made->uses = 1;
    made->user = user;
    return made;
}

struct syncobj *syncobj_use(struct syncobj *object)
{
    object->uses++;
    return object;
}

static void leave_list(struct awaiting *awaiting)
{
    if (awaiting->place == NULL)
        return;
    *awaiting->place = awaiting->next;
    if (awaiting->next != NULL)
        awaiting->next->place = awaiting->place;
    awaiting->place = NULL;
}

void syncobj_drop(struct syncobj *object)
{
    struct awaiting *first;

    if (--object->uses > 0)
        return;
    while ((first = object->awaiting) != NULL) {
        leave_list(first);
        first->object = NULL;
        first->run(first);
    }
    fence_drop(object->fence);
    budget_give(object->user, 1);
    free(object);
}

struct fence *syncobj_fence(const struct syncobj *object)
{
    return object->fence;
}

static void fence_is_there(struct watch *watch)
{
    struct awaiting *awaiting = (struct awaiting *)watch;

    awaiting->run(awaiting);
}

/* Looks whether the point has come, or watches its fence. */
static bool has_come(struct awaiting *awaiting)
{
    struct fence *found;

    if (!fence_find_point(awaiting->object->fence, awaiting->point, &found))
        return false;
    leave_list(awaiting);
    if (found == NULL || awaiting->is_for_fence
        || !fence_watch(found, &awaiting->of_fence, fence_is_there))
        return true;
    awaiting->fence = fence_use(found);
    return false;
}

bool syncobj_await(struct awaiting *awaiting)
{
    struct syncobj *object = awaiting->object;

    if (has_come(awaiting))
        return false;
    if (awaiting->fence != NULL)
        return true;
    awaiting->next = object->awaiting;
    awaiting->place = &object->awaiting;
    if (awaiting->next != NULL)
        awaiting->next->place = &awaiting->next;
    object->awaiting = awaiting;
    return true;
}

void syncobj_await_no_more(struct awaiting *awaiting)
{
    leave_list(awaiting);
    watch_end(&awaiting->of_fence);
    fence_drop(awaiting->fence);
    awaiting->fence = NULL;
}

/* Has what waits look at the object's new fence. What is run ends no other. */
static void look(struct syncobj *object)
{
    struct awaiting *each, *next;

    for (each = object->awaiting; each != NULL; each = next) {
        next = each->next;
        if (has_come(each))
            each->run(each);
    }
}

void syncobj_set(struct syncobj *object, struct fence *fence)
{
    struct fence *before = object->fence;

    object->fence = fence;
    fence_drop(before);
    if (fence != NULL)
        look(object);
}

int syncobj_add_point(uid_t user, struct syncobj *object, struct fence *fence, uint64_t number)
{
    struct fence *point = fence_point(user, object->fence, fence, number);

    if (point == NULL)
        return -ENOMEM;
    object->fence = point;
    look(object);
    return 0;
}

struct point syncobj_point(const struct syncobj *object, uint64_t number)
{
    struct fence *found;
    bool has_fence = fence_find_point(object->fence, number, &found);

    return (struct point){has_fence, has_fence && (found == NULL || fence_is_signaled(found))};
}

/* Makes room for more handles. */
static bool grow(struct syncobjs *handles)
{
    uint32_t count = handles->count > 0 ? 2 * handles->count : FIRST_PLACES;
    struct syncobj **grown = realloc(handles->objects, count * sizeof *grown);

    if (grown == NULL)
        return false;
    memset(grown + handles->count, 0, (count - handles->count) * sizeof *grown);
    handles->objects = grown;
    handles->count = count;
    return true;
}

int syncobjs_add(struct connection *connection, struct syncobj *object, uint32_t *handle)
{
    struct syncobjs *handles = &connection->syncobjs;
    uint32_t at = handles->first_free;

    while (at < handles->count && handles->objects[at] != NULL)
        at++;
    if (at == MOST_HANDLES || (at == handles->count && !grow(handles)))
        return -ENOMEM;
    handles->objects[at] = object;
    handles->first_free = at + 1;
    *handle = at + 1;
    return 0;
}

struct syncobj *syncobjs_find(const struct connection *connection, uint32_t handle)
{
    const struct syncobjs *handles = &connection->syncobjs;

    return handle > 0 && handle <= handles->count ? handles->objects[handle - 1] : NULL;
}

bool syncobjs_close(struct connection *connection, uint32_t handle)
{
    struct syncobjs *handles = &connection->syncobjs;
    struct syncobj *object = syncobjs_find(connection, handle);

    if (object == NULL)
        return false;
    handles->objects[handle - 1] = NULL;
    if (handle - 1 < handles->first_free)
        handles->first_free = handle - 1;
    syncobj_drop(object);
    return true;
}

void syncobjs_end(struct connection *connection)
{
    struct syncobjs *handles = &connection->syncobjs;
    uint32_t handle;

    for (handle = 1; handle <= handles->count; handle++)
        syncobjs_close(connection, handle);
    free(handles->objects);
    *handles = (struct syncobjs){NULL, 0, 0};
}
