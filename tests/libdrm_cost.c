/* For tests: what a call through libdrm costs next to the same call by the C client, which asks the
 * server itself. The two take turns, and the medians are written, in nanoseconds.
 */
#define _GNU_SOURCE
#include <dlfcn.h>
#include <poll.h>
#include <stdio.h>
#include <stdlib.h>

/* The system's own function, as a program has it that no library is loaded into. */
static int (*plain_poll)(struct pollfd *, nfds_t, int);

#define poll plain_poll
#include "drm_client.h"
#undef poll

#include <xf86drm.h>

#define MOST_TIMES 10000

static int64_t taken[2][MOST_TIMES];

static int64_t now(void)
{
    struct timespec time;

    clock_gettime(CLOCK_MONOTONIC, &time);
    return (int64_t)time.tv_sec * 1000000000 + time.tv_nsec;
}

static int compare(const void *one, const void *other)
{
    const int64_t *first = one, *second = other;

    return (*first > *second) - (*first < *second);
}

static int64_t median(int64_t *times, int count)
{
    qsort(times, (size_t)count, sizeof *times, compare);
    return times[count / 2];
}

/* The argument says how often each asks. */
int main(int words, char **word)
{
    int fd = open("/dev/dri/card0", O_RDWR | O_CLOEXEC),
        times = words > 1 ? atoi(word[1]) : MOST_TIMES, at, failed = 0;
    struct zirkoshe_client client;
    uint64_t value;
    void *found;

    found = dlsym(dlopen("libc.so.6", RTLD_LAZY), "poll");
    memcpy(&plain_poll, &found, sizeof found);
    if (fd < 0 || times < 1 || times > MOST_TIMES
        || zirkoshe_open(&client, getenv("DRM_SERVER_CARD"), ZIRKOSHE_TIMEOUT) != 0)
        return 2;
    /* each is the first one every other time */
    for (at = 0; at < 2 * times; at++) {
        bool is_through = at % 4 == 0 || at % 4 == 3;
        int64_t begun = now();

        failed += is_through ? drmGetCap(fd, DRM_CAP_DUMB_BUFFER, &value) != 0
                             : zirkoshe_drmGetCap(&client, ZIRKOSHE_CAP_DUMB_BUFFER, &value) != 0;
        taken[is_through ? 0 : 1][at / 2] = now() - begun;
    }
    printf("%lld %lld %d\n", (long long)median(taken[0], times), (long long)median(taken[1], times),
           failed);
    return 0;
}
