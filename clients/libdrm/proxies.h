/* The descriptors that represent a fence, a synchronisation object or a wait.
 *
 * Each is one end of a pair of sockets, whose other end the display has. It is readable once the
 * fence is signalled, the wait is over, or the display has ended. The kernel reports when all
 * holders have closed it. */
#ifndef ZIRKOSHE_LIBDRM_PROXIES_H
#define ZIRKOSHE_LIBDRM_PROXIES_H

#include "syncobjs.h"

struct proxy;
struct wait;

/* Makes a descriptor for the caller of the request that is answered. Returns it, or a negative
 * errno. That of a fence may have a name; that of a completion has the answer to the request once
 * the fence is signalled. That of a wait ends the wait when it is closed. */
int proxy_of_fence(struct fence *fence, const char *name);
int proxy_of_completion(struct fence *fence);
int proxy_of_syncobj(struct syncobj *object);
int proxy_of_wait(struct wait *wait, struct proxy **made);

/* Sends the answer to a request that waits. */
void proxy_answer(const struct proxy *proxy, const void *argument, size_t size);

/* What a descriptor represents, or NULL if it is none of these. */
struct fence *fence_of_descriptor(int fd);
struct syncobj *syncobj_of_descriptor(int fd);

/* syncobj_waits.c: ends a wait. */
void wait_end(struct wait *wait);

/* fence_calls.c: answers a request on the descriptor of a fence with a name. */
int carry_out_on_fence(struct fence *fence, const char *name, uint32_t request, void *argument);

#endif
