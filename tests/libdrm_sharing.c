/* For tests: descriptors that threads and processes share, through libdrm alone. The first argument
 * says what is tried; a line is written for each thing that was found, and the tests know what it
 * must be.
 */
#include <errno.h>
#include <fcntl.h>
#include <poll.h>
#include <pthread.h>
#include <signal.h>
#include <stdbool.h>
#include <stdint.h>
#include <stdio.h>
#include <stdlib.h>
#include <string.h>
#include <sys/mman.h>
#include <sys/socket.h>
#include <sys/time.h>
#include <sys/wait.h>
#include <unistd.h>
#include <xf86drm.h>
#include <xf86drmMode.h>

#define CARD "/dev/dri/card0"
#define RENDER "/dev/dri/renderD128"
#define SIZE 16384

static void leave(const char *what)
{
    perror(what);
    exit(2);
}

static int open_node(const char *path)
{
    int fd = open(path, O_RDWR | O_CLOEXEC);

    if (fd < 0)
        leave(path);
    return fd;
}

/* What one of two asks for, again and again, and how often it got another answer than its own. */
struct asker {
    int fd;
    uint32_t encoder, mask;
    int times, swapped;
};

static void *ask_encoder(void *argument)
{
    struct asker *asker = argument;
    int at;

    for (at = 0; at < asker->times; at++) {
        drmModeEncoder *found = drmModeGetEncoder(asker->fd, asker->encoder);

        asker->swapped += found == NULL || found->encoder_id != asker->encoder
                          || found->possible_crtcs != asker->mask;
        drmModeFreeEncoder(found);
    }
    return NULL;
}

/* Refusals have their own errnos: a handle that isn't held, and a framebuffer that isn't there.
 */
static void *ask_refusals(void *argument)
{
    struct asker *asker = argument;
    int at;

    for (at = 0; at < asker->times; at++) {
        int result =
            asker->encoder == 5 ? drmCloseBufferHandle(asker->fd, 7) : drmModeRmFB(asker->fd, 7);
        int error = result == -1 ? errno : -result;

        asker->swapped += error != (asker->encoder == 5 ? EINVAL : ENOENT);
    }
    return NULL;
}

/* Two threads on one descriptor, and on a duplicate of it. */
static void share_by_threads(void *(*ask)(void *), int times)
{
    int fd = open_node(CARD);
    struct asker askers[] = {{fd, 5, 3, times, 0}, {dup(fd), 6, 2, times, 0}};
    pthread_t threads[2];
    int at;

    for (at = 0; at < 2; at++)
        pthread_create(&threads[at], NULL, ask, &askers[at]);
    for (at = 0; at < 2; at++)
        pthread_join(threads[at], NULL);
    printf("swapped %d %d\n", askers[0].swapped, askers[1].swapped);
}

/* Two processes on one descriptor. */
static void share_by_processes(int times)
{
    int fd = open_node(CARD), status;
    pid_t child = fork();
    struct asker asker = {fd, child == 0 ? 5 : 6, child == 0 ? 3 : 2, times, 0};

    ask_encoder(&asker);
    if (child == 0)
        _exit(asker.swapped != 0);
    waitpid(child, &status, 0);
    printf("swapped %d %d\n", status, asker.swapped);
}

static volatile sig_atomic_t is_done;

static void *ask_until_done(void *argument)
{
    struct asker *asker = argument;

    do
        ask_encoder(asker);
    while (!is_done);
    return NULL;
}

static int waited_for;

/* A handler that closes descriptors and looks whether there is something to read, as programs have.
 */
static void close_one(int signal)
{
    struct pollfd waited = {waited_for, POLLIN, 0};
    int error = errno;

    (void)signal;
    close(dup(STDOUT_FILENO));
    poll(&waited, 1, 0);
    errno = error;
}

/* Forks while another thread asks and signals come; each child asks too. */
static void fork_while_asking(int times)
{
    const struct itimerval often = {{0, 2000}, {0, 2000}}, never = {{0, 0}, {0, 0}};
    struct asker asker = {open_node(CARD), 6, 2, 1, 0};
    struct sigaction action = {.sa_handler = close_one, .sa_flags = SA_RESTART};
    pthread_t thread;
    int at, failed = 0;

    waited_for = asker.fd;
    sigaction(SIGALRM, &action, NULL);
    setitimer(ITIMER_REAL, &often, NULL);
    pthread_create(&thread, NULL, ask_until_done, &asker);
    for (at = 0; at < times; at++) {
        pid_t child = fork();
        struct asker own = {asker.fd, 5, 3, 1, 0};
        int status;

        if (child == 0) {
            ask_encoder(&own);
            _exit(own.swapped != 0);
        }
        failed += waitpid(child, &status, 0) != child || status != 0;
    }
    setitimer(ITIMER_REAL, &never, NULL);
    is_done = 1;
    pthread_join(thread, NULL);
    printf("swapped %d, children that failed %d\n", asker.swapped, failed);
}

/* Opens and closes again and again: each opener is master, since the one before is closed once
 * close is done. */
static void reopen(int times, bool is_forking)
{
    int at, masters = 0;

    for (at = 0; at < times; at++) {
        int fd = open_node(CARD);

        masters += drmIsMaster(fd);
        if (is_forking) {
            pid_t child = fork();

            if (child == 0)
                _exit(0);
            waitpid(child, NULL, 0);
        }
        close(fd);
    }
    printf("masters %d\n", masters);
}

/* A process ends, as by return of main, without closing: who waited for it is master. */
static void reopen_after_ends(int times)
{
    int at, masters = 0;

    for (at = 0; at < times; at++) {
        int status;
        pid_t child = fork();

        if (child == 0) {
            int fd = open_node(CARD);

            exit(drmIsMaster(fd) ? 1 : 0);
        }
        waitpid(child, &status, 0);
        masters += WEXITSTATUS(status);
    }
    printf("masters %d\n", masters);
}

/* A duplicate, a child's copy and a replaced descriptor: the client stays as long as one of them is
 * there. */
static void keep_copies(void)
{
    int fd = open_node(CARD), other = open_node(CARD), copy = dup(fd), status;
    pid_t child;

    close(fd);
    printf("after closing one of two: master %d, other %d\n", drmIsMaster(copy),
           drmSetMaster(other) == 0);
    fflush(stdout);
    child = fork();
    if (child == 0) {
        close(other);
        printf("child: master %d\n", drmIsMaster(copy));
        exit(0);
    }
    waitpid(child, &status, 0);
    printf("after the child's end: master %d\n", drmIsMaster(copy));
    fd = open_node(RENDER);
    dup2(fd, copy);
    other = open_node(CARD);
    printf("after it was replaced: other is master %d, and it is %s\n", drmIsMaster(other),
           drmGetNodeTypeFromFd(copy) == DRM_NODE_RENDER ? "the render node" : "not replaced");
}

static void send_descriptor(int peer, int fd)
{
    char byte = 'd', space[CMSG_SPACE(sizeof fd)] = {0};
    struct iovec part = {&byte, 1};
    struct msghdr message = {
        .msg_iov = &part, .msg_iovlen = 1, .msg_control = space, .msg_controllen = sizeof space};
    struct cmsghdr *rights = CMSG_FIRSTHDR(&message);

    rights->cmsg_level = SOL_SOCKET;
    rights->cmsg_type = SCM_RIGHTS;
    rights->cmsg_len = CMSG_LEN(sizeof fd);
    memcpy(CMSG_DATA(rights), &fd, sizeof fd);
    if (sendmsg(peer, &message, 0) != 1)
        leave("sendmsg");
}

static int take_descriptor(int peer)
{
    int fd;
    char byte, space[CMSG_SPACE(sizeof fd)];
    struct iovec part = {&byte, 1};
    struct msghdr message = {
        .msg_iov = &part, .msg_iovlen = 1, .msg_control = space, .msg_controllen = sizeof space};

    if (recvmsg(peer, &message, 0) != 1 || CMSG_FIRSTHDR(&message) == NULL)
        leave("recvmsg");
    memcpy(&fd, CMSG_DATA(CMSG_FIRSTHDR(&message)), sizeof fd);
    return fd;
}

/* Tells the other process to go on, or waits for it. */
static void signal_other(int peer)
{
    if (write(peer, "g", 1) != 1)
        leave("write");
}

static void wait_for_other(int peer)
{
    char byte;

    if (read(peer, &byte, 1) != 1)
        leave("read");
}

static uint32_t name_of(int fd, uint32_t handle)
{
    struct drm_gem_flink flink = {.handle = handle};

    return drmIoctl(fd, DRM_IOCTL_GEM_FLINK, &flink) == 0 ? flink.name : 0;
}

static unsigned char *map_descriptor(int fd)
{
    unsigned char *mapped = mmap(NULL, SIZE, PROT_READ | PROT_WRITE, MAP_SHARED, fd, 0);

    if (mapped == MAP_FAILED)
        leave("mmap");
    return mapped;
}

static unsigned char *map_handle(int fd, uint32_t handle)
{
    struct drm_mode_map_dumb map = {.handle = handle};
    unsigned char *mapped;

    if (drmIoctl(fd, DRM_IOCTL_MODE_MAP_DUMB, &map) != 0)
        leave("map");
    mapped = mmap(NULL, SIZE, PROT_READ | PROT_WRITE, MAP_SHARED, fd, (off_t)map.offset);
    if (mapped == MAP_FAILED)
        leave("mmap");
    return mapped;
}

/* The one that takes a descriptor: on the render node, and on the card, where the other
 * authenticates it. */
static int import(int peer)
{
    int buffer = take_descriptor(peer), render = open_node(RENDER), card = open_node(CARD);
    uint32_t first = 0, again = 0, on_card = 0;
    drm_magic_t magic;
    unsigned char *of_descriptor, *of_handle;

    printf("size %lld\n", (long long)lseek(buffer, 0, SEEK_END));
    printf("imports %d %d", drmPrimeFDToHandle(render, buffer, &first),
           drmPrimeFDToHandle(render, buffer, &again));
    printf(" of one handle: %d\n", first == again && first != 0);
    of_descriptor = map_descriptor(buffer);
    printf("bytes %d %d\n", of_descriptor[0], of_descriptor[SIZE - 1]);
    of_descriptor[1] = 99;
    printf("a card's import %d\n", drmPrimeFDToHandle(card, buffer, &on_card));
    of_handle = map_handle(card, on_card);
    printf("bytes of the handle %d %d\n", of_handle[0], of_handle[1]);
    drmGetMagic(card, &magic);
    if (write(peer, &magic, sizeof magic) != sizeof magic)
        leave("write");
    wait_for_other(peer);
    printf("name %u\n", (unsigned)name_of(card, on_card));
    munmap(of_descriptor, SIZE);
    close(buffer);
    fflush(stdout);
    signal_other(peer);
    wait_for_other(peer);
    return 0;
}

static void export(int peer)
{
    int card = open_node(CARD), buffer, other;
    uint32_t handle, pitch;
    uint64_t size;
    drm_magic_t magic;
    unsigned char *mapped;

    if (drmModeCreateDumbBuffer(card, 64, 64, 32, 0, &handle, &pitch, &size) != 0 || size != SIZE)
        leave("buffer");
    mapped = map_handle(card, handle);
    mapped[0] = 11;
    mapped[SIZE - 1] = 22;
    if (drmPrimeHandleToFD(card, handle, DRM_CLOEXEC | DRM_RDWR, &buffer) != 0)
        leave("export");
    send_descriptor(peer, buffer);
    close(buffer);
    /* the other's descriptor keeps the token, also over an export of another */
    drmPrimeHandleToFD(card, handle, DRM_CLOEXEC, &other);
    if (read(peer, &magic, sizeof magic) != sizeof magic)
        leave("read");
    printf("authenticates %d, name %u\n", drmAuthMagic(card, magic),
           (unsigned)name_of(card, handle));
    fflush(stdout);
    signal_other(peer);
    wait_for_other(peer);
    printf("byte of the other %d\n", mapped[1]);
    close(other);
    /* no descriptor is open any more: the next call closes the tokens */
    drmIsMaster(card);
    puts("closed");
    fflush(stdout);
    getchar();
    signal_other(peer);
}

static void share_buffer(void)
{
    int peers[2];
    pid_t child;

    if (socketpair(AF_UNIX, SOCK_STREAM, 0, peers) != 0 || (child = fork()) < 0)
        leave("fork");
    if (child == 0)
        exit(import(peers[1]));
    export(peers[0]);
    waitpid(child, NULL, 0);
}

/* A child is to be killed while it waits for an answer: the parent gets its own. */
static void ask_after_a_kill(void)
{
    int fd = open_node(CARD);
    drmModeEncoder *found;
    pid_t child;

    puts("open");
    fflush(stdout);
    getchar();
    child = fork();
    if (child == 0) {
        drmModeGetEncoder(fd, 5);
        _exit(0);
    }
    printf("child %d\n", (int)child);
    fflush(stdout);
    getchar();
    waitpid(child, NULL, 0);
    found = drmModeGetEncoder(fd, 6);
    printf("%s\n", found == NULL            ? strerror(errno)
                   : found->encoder_id == 6 ? "its own answer"
                                            : "another answer");
}

/* Calls that the server doesn't have, by their errnos, of a master and of another client. */
/* What a caller is refused, or 0. */
static int error_of(int failed)
{
    return failed < 0 ? (failed == -1 ? errno : -failed) : 0;
}

static int ioctl_of(int fd, unsigned long request, void *argument)
{
    return drmIoctl(fd, request, argument) == 0 ? 0 : errno;
}

/* What a client may do: see the CRTC, name a buffer, and darken the CRTC. */
static void say_what_it_may(int fd)
{
    struct drm_mode_create_dumb dumb = {.width = 64, .height = 64, .bpp = 32};
    struct drm_gem_flink name = {0};
    drmModeCrtc *crtc = drmModeGetCrtc(fd, 1);
    int failed = ioctl_of(fd, DRM_IOCTL_MODE_CREATE_DUMB, &dumb);

    name.handle = dumb.handle;
    printf("sees %d, creates %d, names %d, sets %d\n", crtc != NULL, failed,
           ioctl_of(fd, DRM_IOCTL_GEM_FLINK, &name),
           error_of(drmModeSetCrtc(fd, 1, 0, 0, 0, NULL, 0, NULL)));
    drmModeFreeCrtc(crtc);
}

/* A lease of nothing is a second client of the same master. */
static void lease_nothing(int master, int other)
{
    uint32_t ids[2] = {0, 0}, id;
    int fd = drmModeCreateLease(master, NULL, 0, O_CLOEXEC, &ids[0]), second;
    drmModeLesseeListRes *lessees;

    printf("leases nothing %d, closed at exec %d\n", fd >= 0, fcntl(fd, F_GETFD) == FD_CLOEXEC);
    say_what_it_may(fd);
    second = drmModeCreateLease(master, NULL, 0, 0, &ids[1]);
    printf("again %d, closed at exec %d, another id %d\n", second >= 0,
           fcntl(second, F_GETFD) == FD_CLOEXEC, ids[0] != ids[1]);
    lessees = drmModeListLessees(master);
    printf("lessees %d\n", (int)lessees->count);
    drmFree(lessees);
    printf("revokes %d %d, by another %d, no lease %d\n", drmModeRevokeLease(master, ids[0]),
           drmModeRevokeLease(master, ids[1]), error_of(drmModeRevokeLease(other, ids[0])),
           error_of(drmModeRevokeLease(master, ids[1] + 1)));
    say_what_it_may(fd);
    close(fd);
    say_what_it_may(master);
    printf("who isn't master %d\n", error_of(drmModeCreateLease(other, NULL, 0, 0, &id)));
    printf("unknown flag %d\n", error_of(drmModeCreateLease(master, NULL, 0, O_APPEND, &id)));
}

static void call_what_lacks(int fd)
{
    struct drm_mode_crtc_lut gamma = {.crtc_id = 1, .gamma_size = 256};
    drmVBlank vblank = {.request = {.type = DRM_VBLANK_RELATIVE, .sequence = 1}};
    drmModeAtomicReq *request = drmModeAtomicAlloc();
    uint32_t blob;

    drmModeAtomicAddProperty(request, 1, 1, 1);
    printf("atomic %d, flip %d, cursor %d, dirty %d, gamma %d %d, vblank %d, blob %d\n",
           drmModeAtomicCommit(fd, request, 0, NULL), drmModePageFlip(fd, 1, 9, 0, NULL),
           drmModeSetCursor(fd, 1, 0, 64, 64), drmModeDirtyFB(fd, 9, NULL, 0),
           drmIoctl(fd, DRM_IOCTL_MODE_GETGAMMA, &gamma) == 0 ? 0 : -errno,
           drmModeCrtcSetGamma(fd, 1, 0, NULL, NULL, NULL),
           drmWaitVBlank(fd, &vblank) == 0 ? 0 : -errno,
           drmModeCreatePropertyBlob(fd, &blob, sizeof blob, &blob));
    drmModeAtomicFree(request);
}

/* What is wrong with a list of changed areas comes before the driver, and so does the size of a
 * table of gamma that is read. */
static void call_with_lists(int fd)
{
    struct drm_mode_create_dumb dumb = {.width = 64, .height = 64, .bpp = 32};
    struct drm_mode_crtc_lut gamma = {.crtc_id = 99};
    drmModeClip clips[257] = {{0}};
    struct drm_mode_fb_dirty_cmd dirty = {.num_clips = 1};
    struct drm_mode_fb_dirty_cmd copy = {.flags = DRM_MODE_FB_DIRTY_ANNOTATE_COPY, .num_clips = 1};
    uint32_t fb;

    drmIoctl(fd, DRM_IOCTL_MODE_CREATE_DUMB, &dumb);
    drmModeAddFB(fd, 64, 64, 24, 32, dumb.pitch, dumb.handle, &fb);
    dirty.fb_id = copy.fb_id = fb;
    copy.clips_ptr = (uintptr_t)clips;
    printf(
        "all %d, two %d, too many %d, no list %d, half a copy %d, reads gamma %d, of another %d\n",
        drmModeDirtyFB(fd, fb, NULL, 0), drmModeDirtyFB(fd, fb, clips, 2),
        drmModeDirtyFB(fd, fb, clips, 257),
        drmIoctl(fd, DRM_IOCTL_MODE_DIRTYFB, &dirty) == 0 ? 0 : -errno,
        drmIoctl(fd, DRM_IOCTL_MODE_DIRTYFB, &copy) == 0 ? 0 : -errno,
        drmModeCrtcGetGamma(fd, 1, 0, NULL, NULL, NULL),
        drmIoctl(fd, DRM_IOCTL_MODE_GETGAMMA, &gamma) == 0 ? 0 : -errno);
}

int main(int count, char **words)
{
    const char *what = count > 1 ? words[1] : "";

    if (strcmp(what, "threads") == 0)
        share_by_threads(ask_encoder, 2000);
    else if (strcmp(what, "refusals") == 0)
        share_by_threads(ask_refusals, 1000);
    else if (strcmp(what, "processes") == 0)
        share_by_processes(1000);
    else if (strcmp(what, "forks") == 0)
        fork_while_asking(50);
    else if (strcmp(what, "reopen") == 0)
        reopen(30, false);
    else if (strcmp(what, "reopen-forking") == 0)
        reopen(20, true);
    else if (strcmp(what, "ends") == 0)
        reopen_after_ends(20);
    else if (strcmp(what, "copies") == 0)
        keep_copies();
    else if (strcmp(what, "buffer") == 0)
        share_buffer();
    else if (strcmp(what, "kill") == 0)
        ask_after_a_kill();
    else if (strcmp(what, "lacks") == 0) {
        int master = open_node(CARD), other = open_node(CARD), render = open_node(RENDER);

        call_what_lacks(master);
        call_what_lacks(other);
        call_what_lacks(render);
        call_with_lists(master);
    } else if (strcmp(what, "nothing") == 0) {
        int master = open_node(CARD), other = open_node(CARD);

        lease_nothing(master, other);
    } else
        return 2;
    return 0;
}
