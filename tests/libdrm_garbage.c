/* For tests: random requests, and packets that are none, from four processes at once. */
#define _GNU_SOURCE
#include <errno.h>
#include <fcntl.h>
#include <linux/sync_file.h>
#include <poll.h>
#include <signal.h>
#include <stdint.h>
#include <stdio.h>
#include <stdlib.h>
#include <string.h>
#include <sys/ioctl.h>
#include <sys/mman.h>
#include <sys/socket.h>
#include <sys/un.h>
#include <sys/wait.h>
#include <time.h>
#include <unistd.h>

#include <xf86drm.h>
#include <xf86drmMode.h>

#define FILES 6

static uint64_t lists[4096];
static int fds[FILES];

static uint64_t number(void)
{
    switch (rand() % 8) {
    case 0:
        return 0;
    case 1:
        return (uint64_t)rand() << 33 ^ (uint64_t)rand();
    case 2:
        return (uintptr_t)lists;
    case 3:
        return UINT32_MAX;
    default:
        return (uint64_t)(rand() % 16);
    }
}

/* Words of a struct: each is small, or an address of valid memory, or anything; addresses are only
 * ever valid ones or 0, since this library reads them itself. */
static void fill(uint64_t *words, size_t count, int has_addresses)
{
    size_t at;

    for (at = 0; at < count; at++) {
        uint64_t value = number();

        if (has_addresses)
            words[at] = rand() % 3 == 0 ? (uintptr_t)lists
                                        : (uint64_t)(rand() % 9) << 32 | (uint64_t)(rand() % 9);
        else
            words[at] = value;
    }
}

/* A time at which a wait ends soon */
static uint64_t soon(void)
{
    struct timespec now;

    clock_gettime(CLOCK_MONOTONIC, &now);
    return (uint64_t)now.tv_sec * 1000000000 + (uint64_t)now.tv_nsec + (uint64_t)(rand() % 3000000);
}

/* Keeps a wait short. */
static void shorten(unsigned long asked, uint64_t *words)
{
    if (asked == DRM_IOCTL_SYNCOBJ_WAIT)
        words[1] = soon();
    if (asked == DRM_IOCTL_SYNCOBJ_TIMELINE_WAIT)
        words[2] = soon();
    if (asked == DRM_IOCTL_SYNCOBJ_TRANSFER)
        words[3] &= ~(uint64_t)DRM_SYNCOBJ_WAIT_FLAGS_WAIT_FOR_SUBMIT;
}

/* Requests with the descriptor of an object or of a fence, which is closed then. */
static void use(int fd, int file)
{
    struct drm_syncobj_handle import = {(uint32_t)(rand() % 4), (uint32_t)(rand() % 3), file, 0};
    struct sync_merge_data merge = {.fd2 = rand() % 2 ? file : rand() % 8};
    struct sync_file_info info = {.num_fences = (uint32_t)(rand() % 3),
                                  .sync_fence_info = (uintptr_t)lists};

    ioctl(fd, DRM_IOCTL_SYNCOBJ_FD_TO_HANDLE, &import);
    if (ioctl(file, SYNC_IOC_MERGE, &merge) == 0)
        close(merge.fence);
    ioctl(file, SYNC_IOC_FILE_INFO, &info);
    close(file);
}

static void request(int fd)
{
    static const unsigned long known[] = {DRM_IOCTL_VERSION,
                                          DRM_IOCTL_GET_UNIQUE,
                                          DRM_IOCTL_GET_MAGIC,
                                          DRM_IOCTL_GET_CLIENT,
                                          DRM_IOCTL_SET_VERSION,
                                          DRM_IOCTL_GEM_CLOSE,
                                          DRM_IOCTL_GEM_FLINK,
                                          DRM_IOCTL_GEM_OPEN,
                                          DRM_IOCTL_GET_CAP,
                                          DRM_IOCTL_SET_CLIENT_CAP,
                                          DRM_IOCTL_AUTH_MAGIC,
                                          DRM_IOCTL_SET_MASTER,
                                          DRM_IOCTL_DROP_MASTER,
                                          DRM_IOCTL_PRIME_HANDLE_TO_FD,
                                          DRM_IOCTL_PRIME_FD_TO_HANDLE,
                                          DRM_IOCTL_CRTC_GET_SEQUENCE,
                                          DRM_IOCTL_CRTC_QUEUE_SEQUENCE,
                                          DRM_IOCTL_MODE_GETRESOURCES,
                                          DRM_IOCTL_MODE_GETCRTC,
                                          DRM_IOCTL_MODE_SETCRTC,
                                          DRM_IOCTL_MODE_CURSOR,
                                          DRM_IOCTL_MODE_GETENCODER,
                                          DRM_IOCTL_MODE_GETCONNECTOR,
                                          DRM_IOCTL_MODE_GETPROPERTY,
                                          DRM_IOCTL_MODE_GETPROPBLOB,
                                          DRM_IOCTL_MODE_GETFB,
                                          DRM_IOCTL_MODE_ADDFB,
                                          DRM_IOCTL_MODE_RMFB,
                                          DRM_IOCTL_MODE_PAGE_FLIP,
                                          DRM_IOCTL_MODE_DIRTYFB,
                                          DRM_IOCTL_MODE_CREATE_DUMB,
                                          DRM_IOCTL_MODE_MAP_DUMB,
                                          DRM_IOCTL_MODE_DESTROY_DUMB,
                                          DRM_IOCTL_MODE_GETPLANERESOURCES,
                                          DRM_IOCTL_MODE_GETPLANE,
                                          DRM_IOCTL_MODE_SETPLANE,
                                          DRM_IOCTL_MODE_ADDFB2,
                                          DRM_IOCTL_MODE_OBJ_GETPROPERTIES,
                                          DRM_IOCTL_MODE_ATOMIC,
                                          DRM_IOCTL_MODE_CREATEPROPBLOB,
                                          DRM_IOCTL_MODE_DESTROYPROPBLOB,
                                          DRM_IOCTL_MODE_CREATE_LEASE,
                                          DRM_IOCTL_MODE_LIST_LESSEES,
                                          DRM_IOCTL_MODE_GET_LEASE,
                                          DRM_IOCTL_MODE_REVOKE_LEASE,
                                          DRM_IOCTL_MODE_GETFB2,
                                          DRM_IOCTL_MODE_CURSOR2,
                                          DRM_IOCTL_MODE_GETGAMMA,
                                          DRM_IOCTL_MODE_SETGAMMA,
                                          DRM_IOCTL_MODE_OBJ_SETPROPERTY,
                                          DRM_IOCTL_SYNCOBJ_CREATE,
                                          DRM_IOCTL_SYNCOBJ_DESTROY,
                                          DRM_IOCTL_SYNCOBJ_HANDLE_TO_FD,
                                          DRM_IOCTL_SYNCOBJ_FD_TO_HANDLE,
                                          DRM_IOCTL_SYNCOBJ_WAIT,
                                          DRM_IOCTL_SYNCOBJ_RESET,
                                          DRM_IOCTL_SYNCOBJ_SIGNAL,
                                          DRM_IOCTL_SYNCOBJ_TIMELINE_WAIT,
                                          DRM_IOCTL_SYNCOBJ_TIMELINE_SIGNAL,
                                          DRM_IOCTL_SYNCOBJ_QUERY,
                                          DRM_IOCTL_SYNCOBJ_TRANSFER,
                                          DRM_IOWR(0xCF, struct drm_syncobj_timeline_array)};
    uint64_t words[64];
    unsigned long asked = known[(size_t)rand() % (sizeof known / sizeof known[0])];

    memset(words, 0, sizeof words);
    fill(words, 16, 1);
    if (asked == DRM_IOCTL_MODE_CREATE_DUMB) {
        words[0] = (uint64_t)(1 + rand() % 64) << 32 | (uint64_t)(1 + rand() % 64);
        words[1] = 32;
    }
    if (asked == DRM_IOCTL_MODE_ATOMIC) {
        struct drm_mode_atomic *commit = (void *)words;

        commit->flags &= 0x7ff & ~0u;
        commit->flags |= DRM_MODE_ATOMIC_NONBLOCK;
        commit->count_objs = (uint32_t)(rand() % 5);
        commit->objs_ptr = commit->count_props_ptr = commit->props_ptr = commit->prop_values_ptr =
            (uintptr_t)lists;
        for (int at = 0; at < 16; at++)
            lists[at] = (uint64_t)(rand() % 12) << 32 | (uint64_t)(rand() % 12);
        /* properties that there are */
        if (rand() % 2)
            commit->props_ptr = (uintptr_t)(lists + 64);
        for (int at = 64; at < 80; at++)
            lists[at] = (uint64_t)(1000 + rand() % 22) << 32 | (uint64_t)(1000 + rand() % 22);
    } else {
        lists[0] = 7;
    }
    shorten(asked, words);
    if (ioctl(fd, asked, words) == 0 && asked == DRM_IOCTL_SYNCOBJ_HANDLE_TO_FD)
        use(fd, (int)words[1]);
    if (asked == DRM_IOCTL_PRIME_HANDLE_TO_FD && (int)(words[1] & 0xffffffff) > 2)
        close((int)(words[1] >> 32) > 50 ? (int)(words[1] >> 32) : -1);
    if (asked == DRM_IOCTL_MODE_CREATE_LEASE && (int)(words[2]) > 50)
        close((int)words[2]);
}

/* A packet that is none, or almost one, on a node or on the display's own socket. */
static void packet(int fd)
{
    uint32_t words[512];
    size_t at, length = (size_t)(rand() % (int)sizeof words);
    struct sockaddr_un address = {.sun_family = AF_UNIX};
    int own = -1;

    for (at = 0; at < 512; at++)
        words[at] = (uint32_t)number();
    if (rand() % 2)
        words[0] = 0x5a4b0001u;
    if (rand() % 2)
        words[1] = (uint32_t)(rand() % 4);
    if (rand() % 2)
        words[2] = DRM_IOCTL_MODE_GETCRTC;
    if (rand() % 4 == 0)
        words[3] = 0;
    if (rand() % 2)
        words[4] = (uint32_t)(rand() % 10);
    if (rand() % 2) {
        memset(words + 12, 0, 64);
        length = 112 + 104;
    }
    if (rand() % 8 == 0) {
        strncpy(address.sun_path, getenv("DRM_SERVER_DISPLAY"), sizeof address.sun_path - 1);
        own = socket(AF_UNIX, SOCK_SEQPACKET | SOCK_CLOEXEC, 0);
        if (connect(own, (struct sockaddr *)&address, sizeof address) == 0)
            send(own, words, length, MSG_DONTWAIT | MSG_NOSIGNAL);
        close(own);
        return;
    }
    send(fd, words, length, MSG_DONTWAIT | MSG_NOSIGNAL);
}

static void run(int seed, int times)
{
    char bytes[1024];
    int round;

    srand((unsigned)seed);
    for (round = 0; round < times; round++) {
        int at = rand() % FILES;

        if (fds[at] < 0 || (at > 0 && rand() % 200 == 0)) {
            if (fds[at] >= 0)
                close(fds[at]);
            fds[at] = open("/dev/dri/card0", O_RDWR | O_CLOEXEC | O_NONBLOCK);
            continue;
        }
        if (rand() % 10 == 0)
            packet(fds[at]);
        else
            request(fds[at]);
        if (rand() % 20 == 0)
            while (read(fds[at], bytes, sizeof bytes) > 0)
                ;
    }
}

int main(int count, char **words)
{
    int times = count > 1 ? atoi(words[1]) : 25000, at, bad = 0;
    struct timespec begun, ended;
    uint64_t value;

    memset(fds, 0xff, sizeof fds);
    fds[0] = open("/dev/dri/card0", O_RDWR | O_CLOEXEC | O_NONBLOCK);
    fflush(stdout);
    for (at = 0; at < 4; at++) {
        if (fork() == 0) {
            run(at + 1, times);
            _exit(0);
        }
    }
    for (at = 0; at < 4; at++) {
        int status = 0;

        wait(&status);
        bad += status != 0;
    }
    clock_gettime(CLOCK_MONOTONIC, &begun);
    printf("processes that ended badly %d, the display answers afterwards: %s\n", bad,
           drmGetCap(fds[0], DRM_CAP_DUMB_BUFFER, &value) == 0 ? "yes" : strerror(errno));
    clock_gettime(CLOCK_MONOTONIC, &ended);
    return 0;
}
