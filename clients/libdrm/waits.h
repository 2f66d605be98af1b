/* Waits for synchronisation objects. */
#ifndef ZIRKOSHE_LIBDRM_WAITS_H
#define ZIRKOSHE_LIBDRM_WAITS_H

#include "connections.h"

/* How many handles a request may have */
#define MOST_AWAITED 16384u

/* Lets the caller wait for a fence of a point until a time, and then ask again; a negative errno,
 * which is -ETIME if the time has come. */
int wait_for_submit(struct syncobj *object, uint64_t point, int64_t until);

/* syncobj_calls.c: the objects of the handles that a request has, and the numbers of their points,
 * which are 0 without an address. The caller frees them. NULL with an errno in `failed`. */
struct syncobj **find_objects(const struct connection *connection, uint64_t address, uint32_t count,
                              int *failed);
uint64_t *find_points(uint64_t address, uint32_t count, int *failed);

#endif
