/* For tests: how much of a display a user may have. The argument says of what; a line says how much
 * there was until no more was given. */
#define _GNU_SOURCE
#include <errno.h>
#include <fcntl.h>
#include <stdint.h>
#include <stdio.h>
#include <stdlib.h>
#include <string.h>
#include <sys/resource.h>
#include <sys/socket.h>
#include <sys/un.h>
#include <unistd.h>

#include <xf86drm.h>

#define CARD "/dev/dri/card0"

/* Opens files, and waits for a line. */
static void open_files(void)
{
    int count = 0;

    while (open(CARD, O_RDWR | O_CLOEXEC) >= 0)
        count++;
    printf("opened %d, then %s\n", count, strerrorname_np(errno));
    fflush(stdout);
    getchar();
}

/* Sends bytes on a socket with a descriptor. */
static void send_with(int socket, void *bytes, size_t size, int fd)
{
    union {
        struct cmsghdr head;
        char room[CMSG_SPACE(sizeof fd)];
    } control = {0};
    struct iovec part = {bytes, size};
    struct msghdr message = {.msg_iov = &part,
                             .msg_iovlen = 1,
                             .msg_control = &control,
                             .msg_controllen = sizeof control};

    control.head.cmsg_level = SOL_SOCKET;
    control.head.cmsg_type = SCM_RIGHTS;
    control.head.cmsg_len = CMSG_LEN(sizeof fd);
    memcpy(CMSG_DATA(&control.head), &fd, sizeof fd);
    sendmsg(socket, &message, 0);
}

/* Sends the display sockets for the answers of threads, until it takes no more. */
static void give_sockets(void)
{
    /* the form of a packet, its kind, which asks for nothing, and that it has a socket */
    uint32_t ask[30] = {0x5a4b0001, 3, 0, 1};
    struct sockaddr_un address = {.sun_family = AF_UNIX};
    int display = socket(AF_UNIX, SOCK_SEQPACKET, 0), ends[2], count = -1;
    int32_t reply[32] = {0};
    struct rlimit most;

    getrlimit(RLIMIT_NOFILE, &most);
    most.rlim_cur = most.rlim_max;
    setrlimit(RLIMIT_NOFILE, &most);
    strncpy(address.sun_path, getenv("DRM_SERVER_DISPLAY"), sizeof address.sun_path - 1);
    if (connect(display, (struct sockaddr *)&address, sizeof address) != 0)
        exit(2);
    for (; reply[0] == 0; count++) {
        if (socketpair(AF_UNIX, SOCK_SEQPACKET, 0, ends) != 0)
            exit(2);
        send_with(display, ask, sizeof ask, ends[1]);
        close(ends[1]);
        if (recv(ends[0], reply, sizeof reply, 0) <= 0)
            exit(2);
    }
    printf("taken %d, then %s\n", count, strerrorname_np(-reply[0]));
}

/* Creates synchronisation objects on five files, until each has as many as it may. */
static void create_objects(void)
{
    uint32_t handle;
    int at, count = 0;

    for (at = 0; at < 5; at++) {
        int fd = open(CARD, O_RDWR | O_CLOEXEC);

        while (drmSyncobjCreate(fd, 0, &handle) == 0)
            count++;
    }
    printf("objects %d\n", count);
}

int main(int count, char **words)
{
    const char *what = count > 1 ? words[1] : "";

    if (strcmp(what, "files") == 0)
        open_files();
    else if (strcmp(what, "sockets") == 0)
        give_sockets();
    else if (strcmp(what, "objects") == 0)
        create_objects();
    else
        return 2;
    return 0;
}
