/* The descriptors that represent fences, synchronisation objects and waits. */
#include "display.h"

#include "budgets.h"
#include "proxies.h"

#include <stdio.h>
#include <stdlib.h>
#include <sys/epoll.h>
#include <sys/random.h>

#define MOST_NAME 32
/* No descriptor is recognized by this name. */
#define WAIT_NAME "zirkoshe-wait-"

struct proxy {
    struct source source;
    struct watch watch; /* of the fence */
    struct proxy *next;
    unsigned long number;
    uid_t user;
    uint32_t tag;          /* of the request that waits, */
    bool is_of_completion; /* which has no other answer */
    struct fence *fence;
    struct syncobj *object;
    struct wait *wait;
    char name[MOST_NAME];
};

static struct proxy *proxies;
static unsigned long last_number;

/* Makes a pair of sockets. Returns the caller's end, or a negative errno. */
static int make_pair(struct proxy *proxy, const char *kind)
{
    int ends[2], failed = pair_make(ends, kind, proxy->number);

    if (failed)
        return failed;
    proxy->source = (struct source){SOURCE_PROXY, ends[0]};
    if (fcntl(ends[0], F_SETFL, O_NONBLOCK) == 0 && source_add(&proxy->source, EPOLLIN))
        return ends[1];
    failed = -errno;
    pair_close(ends);
    return failed;
}

/* The first number is random, since other displays name theirs by the same rule. */
static unsigned long next_number(void)
{
    while (last_number == 0 && getrandom(&last_number, sizeof last_number / 2, 0) < 0)
        ;
    return ++last_number;
}

static int make(const char *kind, struct proxy **made)
{
    struct proxy *proxy =
        budget_take(caller_user(), COST_OF_DESCRIPTOR) ? calloc(1, sizeof *proxy) : NULL;
    int fd;

    if (proxy == NULL)
        return -EMFILE;
    proxy->number = next_number();
    proxy->user = caller_user();
    proxy->tag = task_now()->packet.ask.tag;
    fd = make_pair(proxy, kind);
    if (fd < 0) {
        budget_give(proxy->user, COST_OF_DESCRIPTOR);
        free(proxy);
        return fd;
    }
    proxy->next = proxies;
    proxies = proxy;
    *made = proxy;
    return fd;
}

/* From now on all can read the end of the other end. */
static void show_signal(struct watch *watch)
{
    const struct proxy *proxy = (struct proxy *)((char *)watch - offsetof(struct proxy, watch));

    if (proxy->is_of_completion)
        proxy_answer(proxy, NULL, 0);
    shutdown(proxy->source.fd, SHUT_WR);
}

/* Has a proxy show when a fence is signalled. */
static void watch_for(struct proxy *proxy, struct fence *fence)
{
    proxy->fence = fence_use(fence);
    if (!fence_watch(fence, &proxy->watch, show_signal))
        show_signal(&proxy->watch);
}

int proxy_of_fence(struct fence *fence, const char *name)
{
    struct proxy *made;
    int fd = make(FENCE_NAME, &made);

    if (fd < 0)
        return fd;
    snprintf(made->name, sizeof made->name, "%s", name);
    watch_for(made, fence);
    return fd;
}

int proxy_of_completion(struct fence *fence)
{
    struct proxy *made;
    int fd = make(WAIT_NAME, &made);

    if (fd < 0)
        return fd;
    made->is_of_completion = true;
    watch_for(made, fence);
    return fd;
}

int proxy_of_syncobj(struct syncobj *object)
{
    struct proxy *made;
    int fd = make(SYNCOBJ_NAME, &made);

    if (fd >= 0)
        made->object = syncobj_use(object);
    return fd;
}

int proxy_of_wait(struct wait *wait, struct proxy **made)
{
    int fd = make(WAIT_NAME, made);

    if (fd >= 0)
        (*made)->wait = wait;
    return fd;
}

void proxy_answer(const struct proxy *proxy, const void *argument, size_t size)
{
    const struct reply reply = {.tag = proxy->tag, .size = (uint32_t)size};
    struct iovec parts[] = {{(void *)(uintptr_t)&reply, sizeof reply},
                            {(void *)(uintptr_t)argument, size}};
    const struct msghdr message = {.msg_iov = parts, .msg_iovlen = 2};

    sendmsg(proxy->source.fd, &message, MSG_DONTWAIT | MSG_NOSIGNAL);
}

static const struct proxy *find(unsigned long number)
{
    const struct proxy *each = number == 0 ? NULL : proxies;

    while (each != NULL && each->number != number)
        each = each->next;
    return each;
}

struct fence *fence_of_descriptor(int fd)
{
    const struct proxy *found = fd < 0 ? NULL : find(fence_number(fd));

    return found == NULL ? NULL : found->fence;
}

struct syncobj *syncobj_of_descriptor(int fd)
{
    const struct proxy *found = fd < 0 ? NULL : find(syncobj_number(fd));

    return found == NULL ? NULL : found->object;
}

int proxy_carry_out(const struct proxy *proxy, uint32_t request, void *argument)
{
    return proxy->fence == NULL ? -ENOTTY
                                : carry_out_on_fence(proxy->fence, proxy->name, request, argument);
}

static void end(struct proxy *proxy)
{
    struct proxy **place = &proxies;

    while (*place != proxy)
        place = &(*place)->next;
    *place = proxy->next;
    watch_end(&proxy->watch);
    fence_drop(proxy->fence);
    if (proxy->object != NULL)
        syncobj_drop(proxy->object);
    if (proxy->wait != NULL)
        wait_end(proxy->wait);
    budget_give(proxy->user, COST_OF_DESCRIPTOR);
    close(proxy->source.fd);
    free(proxy);
}

static bool has_ended(const struct proxy *proxy)
{
    struct pollfd seen = {proxy->source.fd, 0, 0};

    return poll(&seen, 1, 0) == 1 && (seen.revents & POLLHUP);
}

/* A proxy has no thread: none of its requests waits. The lock is let go when the answer is sent. */
void proxy_attend(struct source *source)
{
    struct proxy *proxy = (struct proxy *)source;
    struct peer peer = {.source = *source, .proxy = proxy};
    struct task *task = task_now();

    task->peer = &peer;
    if (packet_receive(task)) {
        packet_answer(task);
        display_unlock();
        display_lock();
    } else if (has_ended(proxy)) {
        end(proxy);
    }
}
