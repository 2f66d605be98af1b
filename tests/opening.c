/* Openings: `opening PATH`, which names no socket, fails; `opening planes PATH` prints how many
 * planes clients see at first. Each mutex that a client creates is destroyed. */
#define _POSIX_C_SOURCE 200809L
#include <pthread.h>

static int mutexes;

static int counted_init(pthread_mutex_t *mutex, const pthread_mutexattr_t *kind)
{
    mutexes++;
    return pthread_mutex_init(mutex, kind);
}

static int counted_destroy(pthread_mutex_t *mutex)
{
    mutexes--;
    return pthread_mutex_destroy(mutex);
}

#define pthread_mutex_init counted_init
#define pthread_mutex_destroy counted_destroy
#include "drm_client.h"

#include <stdio.h>

typedef int opening(struct zirkoshe_client *client, const char *path, int timeout);

static void tell(const char *what, int failed)
{
    printf("%s: %s\n", what, failed == 0 ? "opened" : strerror(-failed));
}

static int fail(const char *path)
{
    struct zirkoshe_client client;

    tell("no path", zirkoshe_open(&client, NULL, ZIRKOSHE_TIMEOUT));
    tell("an empty path", zirkoshe_open(&client, "", ZIRKOSHE_TIMEOUT));
    tell("no server", zirkoshe_open(&client, path, ZIRKOSHE_TIMEOUT));
    tell("a call of it", zirkoshe_drmSetMaster(&client));
    tell("its closing", zirkoshe_close(&client));
    return mutexes;
}

static int count(const char *what, opening *open_by, const char *path)
{
    struct zirkoshe_client client;
    struct zirkoshe_ids planes = {0, {0}};

    if (open_by(&client, path, ZIRKOSHE_TIMEOUT)
        || zirkoshe_drmModeGetPlaneResources(&client, &planes))
        return 1;
    printf("%s: %u planes\n", what, (unsigned)planes.count);
    if (zirkoshe_close(&client) || zirkoshe_close(&client))
        return 1;
    return zirkoshe_drmSetMaster(&client) == -ENOTCONN ? mutexes : 1;
}

int main(int words, char **word)
{
    if (words == 2)
        return fail(word[1]);
    if (words != 3)
        return 2;
    return count("by default", zirkoshe_open, word[2]) | count("version 1", zirkoshe_open1, word[2])
           | count("version 2", zirkoshe_open2, word[2]);
}
