/* Synchronisation objects: each has a fence, or none, or the points of a timeline. */
#ifndef ZIRKOSHE_LIBDRM_SYNCOBJS_H
#define ZIRKOSHE_LIBDRM_SYNCOBJS_H

#include "fences.h"

struct connection;
struct syncobj;

/* The handles of a connection */
struct syncobjs {
    struct syncobj **objects; /* by their handles, from 1 on */
    uint32_t count;           /* of places, of which some are free, */
    uint32_t first_free;      /* none before this one */
};

/* Makes an object without a fence; NULL without budget or memory. Begins and ends a use. */
struct syncobj *syncobj_make(uid_t user);
struct syncobj *syncobj_use(struct syncobj *object);
void syncobj_drop(struct syncobj *object);

/* The fence of an object, or NULL. Sets it, or none; takes the use of the fence. */
struct fence *syncobj_fence(const struct syncobj *object);
void syncobj_set(struct syncobj *object, struct fence *fence);

/* Adds a point to the timeline, and takes the use of its fence; 0, or -ENOMEM. */
int syncobj_add_point(uid_t user, struct syncobj *object, struct fence *fence, uint64_t number);

/* Gives an object its lowest free handle, which takes the use; 0, or -ENOMEM. Returns the object of
 * a handle, or NULL. Closes a handle; false if there is none. Closes all of a connection. */
int syncobjs_add(struct connection *connection, struct syncobj *object, uint32_t *handle);
struct syncobj *syncobjs_find(const struct connection *connection, uint32_t handle);
bool syncobjs_close(struct connection *connection, uint32_t handle);
void syncobjs_end(struct connection *connection);

/* What waits for a point of an object */
struct awaiting {
    struct watch of_fence;
    struct fence *fence;            /* of the point, once there is one */
    struct awaiting *next, **place; /* of those that wait for one */
    struct syncobj *object;
    uint64_t point;
    bool is_for_fence; /* it needn't be signalled */
    void (*run)(struct awaiting *awaiting);
};

/* Awaits a point of the object; false if that has come already. Ends that. When the object ends, it
 * is run without an object. */
bool syncobj_await(struct awaiting *awaiting);
void syncobj_await_no_more(struct awaiting *awaiting);

/* Whether the point of an object has a fence, and whether that is signalled */
struct point {
    bool has_fence, is_signaled;
};
struct point syncobj_point(const struct syncobj *object, uint64_t number);

#endif
