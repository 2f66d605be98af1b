/* The answer to SYNCOBJ_EVENTFD, and the eventfds that are signalled later. */
#include "answers.h"

#include "budgets.h"
#include "syncobjs.h"

#include <signal.h>
#include <stdio.h>
#include <stdlib.h>
#include <time.h>

/* How long a write takes at most, in nanoseconds. It waits if the count is the highest. */
#define MOST_WRITING 10000000

struct eventfd {
    struct awaiting awaiting;
    uid_t user;
    int fd;
};

static void do_nothing(int signal)
{
    (void)signal;
}

/* Adds 1, unless the count is the highest. Another holder may add meanwhile: a signal ends a write
 * that waits. */
static void add_one(int fd)
{
    const uint64_t one = 1;
    const struct itimerspec soon = {{0, MOST_WRITING}, {0, MOST_WRITING}};
    const struct sigaction action = {.sa_handler = do_nothing};
    struct sigevent event = {.sigev_notify = SIGEV_THREAD_ID, .sigev_signo = SIGALRM};
    struct pollfd writable = {fd, POLLOUT, 0};
    timer_t timer;
    ssize_t written;

    event._sigev_un._tid = gettid();
    sigaction(SIGALRM, &action, NULL);
    if (poll(&writable, 1, 0) != 1 || timer_create(CLOCK_MONOTONIC, &event, &timer) != 0)
        return;
    timer_settime(timer, 0, &soon, NULL);
    written = write(fd, &one, sizeof one);
    (void)written;
    timer_delete(timer);
}

static void end(struct eventfd *eventfd)
{
    syncobj_await_no_more(&eventfd->awaiting);
    budget_give(eventfd->user, COST_OF_DESCRIPTOR);
    close(eventfd->fd);
    free(eventfd);
}

/* The point has come, or the object has ended. */
static void has_come(struct awaiting *awaiting)
{
    struct eventfd *eventfd = (struct eventfd *)awaiting;

    if (awaiting->object != NULL)
        add_one(eventfd->fd);
    end(eventfd);
}

static bool is_eventfd(int fd)
{
    static const char wanted[] = "anon_inode:[eventfd]";
    char path[32], name[sizeof wanted];
    ssize_t length;

    snprintf(path, sizeof path, "/proc/self/fd/%d", fd);
    length = readlink(path, name, sizeof name);
    return length == sizeof wanted - 1 && memcmp(name, wanted, sizeof wanted - 1) == 0;
}

static struct eventfd *make(int fd)
{
    struct eventfd *made =
        budget_take(caller_user(), COST_OF_DESCRIPTOR) ? calloc(1, sizeof *made) : NULL;

    if (made == NULL)
        return NULL;
    made->user = caller_user();
    made->fd = fcntl(fd, F_DUPFD_CLOEXEC, 0);
    return made;
}

int answer_syncobj_eventfd(struct connection *connection, void *argument)
{
    const struct drm_syncobj_eventfd *asked = argument;
    struct syncobj *object = syncobjs_find(connection, asked->handle);
    int fd = caller_descriptor(0);
    struct eventfd *made;

    if ((asked->flags & ~(uint32_t)DRM_SYNCOBJ_WAIT_FLAGS_WAIT_AVAILABLE) || asked->pad != 0)
        return -EINVAL;
    if (object == NULL)
        return -ENOENT;
    if (fd < 0 || !is_eventfd(fd))
        return fd < 0 ? -EBADF : -EINVAL;
    made = make(fd);
    if (made == NULL)
        return -ENOMEM;
    made->awaiting.object = object;
    made->awaiting.point = asked->point;
    made->awaiting.is_for_fence = asked->flags != 0;
    made->awaiting.run = has_come;
    if (!syncobj_await(&made->awaiting))
        has_come(&made->awaiting);
    return 0;
}
