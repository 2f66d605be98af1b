/* The client of the server, which sends and waits as a thread of the display does: without the
 * lock of the display. The display has no children, so it doesn't ask the kernel which process it
 * is.
 */
#ifndef ZIRKOSHE_LIBDRM_CLIENT_H
#define ZIRKOSHE_LIBDRM_CLIENT_H

#include <poll.h>
#include <sys/types.h>

/* display/turns.c: as poll, send and recv. */
int task_poll(struct pollfd *waited, nfds_t count, int milliseconds);
ssize_t task_send(int socket, const void *bytes, size_t size, int flags);
ssize_t task_receive(int socket, void *bytes, size_t size, int flags);

static inline pid_t task_process(void)
{
    return 0;
}

#define ZIRKOSHE_GETPID task_process
#define ZIRKOSHE_POLL task_poll
#define ZIRKOSHE_SEND task_send
#define ZIRKOSHE_RECEIVE task_receive
#include "drm_client.h"

#endif
