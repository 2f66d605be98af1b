/* The nodes of the device. */
#include "libc.h"

#include "nodes.h"

#include <errno.h>
#include <stdio.h>
#include <stdlib.h>
#include <string.h>
#include <sys/socket.h>
#include <sys/un.h>

const char *node_path(enum node node)
{
    static const char *const names[] = {"DRM_SERVER_CARD", "DRM_SERVER_RENDER", "DRM_SERVER_ROOT"};
    const char *path = getenv(names[node]);

    return path == NULL || path[0] == '\0' ? NULL : path;
}

/* Returns what follows the beginning of the name of a descriptor's peer, or an empty text. */
static const char *name_of_peer(int fd, const char *wanted, struct sockaddr_un *peer)
{
    const size_t length = strlen(wanted), begin = offsetof(struct sockaddr_un, sun_path) + 1;
    socklen_t size = sizeof *peer - 1;
    int error = errno;
    bool is_one;

    memset(peer, 0, sizeof *peer);
    is_one = getpeername(fd, (struct sockaddr *)peer, &size) == 0 && peer->sun_family == AF_UNIX
             && size > begin + length && memcmp(peer->sun_path + 1, wanted, length) == 0;
    errno = error;
    return is_one ? peer->sun_path + 1 + length : "";
}

bool is_node(int fd, enum node *node)
{
    struct sockaddr_un peer;
    char kind = name_of_peer(fd, NODE_NAME, &peer)[0];

    if (kind < '0' || kind >= '0' + NODE_KINDS)
        return false;
    *node = (enum node)(kind - '0');
    return true;
}

static unsigned long number_of(int fd, const char *wanted)
{
    struct sockaddr_un peer;
    unsigned long number = 0;

    sscanf(name_of_peer(fd, wanted, &peer), "%lu", &number);
    return number;
}

unsigned long fence_number(int fd)
{
    return number_of(fd, FENCE_NAME);
}

unsigned long syncobj_number(int fd)
{
    return number_of(fd, SYNCOBJ_NAME);
}

bool names_descriptor(const char *path, pid_t process, int *fd)
{
    char own[32] = "/";
    const char *const folders[] = {"/dev/fd/", "/proc/self/fd/", "/proc/thread-self/fd/", own};
    size_t at, size;
    int length = 0;

    if (strncmp(path, "/proc/", 6) == 0)
        snprintf(own, sizeof own, "/proc/%d/fd/", (int)process);
    for (at = 0; at < sizeof folders / sizeof folders[0]; at++) {
        size = strlen(folders[at]);
        if (size > 1 && strncmp(path, folders[at], size) == 0
            && sscanf(path + size, "%d%n", fd, &length) == 1 && path[size + (size_t)length] == '\0')
            return true;
    }
    return false;
}

bool is_memory(int fd)
{
    static const char wanted[] = "/memfd:" MEMORY_NAME;
    char path[32], name[sizeof wanted + 1];
    int error = errno;
    ssize_t length;

    snprintf(path, sizeof path, "/proc/self/fd/%d", fd);
    length = libc_readlink(path, name, sizeof name);
    errno = error;
    return length >= (ssize_t)sizeof wanted - 1 && memcmp(name, wanted, sizeof wanted - 1) == 0;
}
