/* For tests: synchronisation objects and fences, of one process and of two. The argument is a case,
 * which prints what it finds. */
#define _GNU_SOURCE
#include <errno.h>
#include <fcntl.h>
#include <inttypes.h>
#include <linux/sync_file.h>
#include <poll.h>
#include <signal.h>
#include <stdbool.h>
#include <stdint.h>
#include <stdio.h>
#include <stdlib.h>
#include <string.h>
#include <sys/eventfd.h>
#include <sys/ioctl.h>
#include <sys/socket.h>
#include <sys/time.h>
#include <sys/wait.h>
#include <time.h>
#include <unistd.h>

#include <xf86drm.h>
#include <xf86drmMode.h>

#define MILLISECOND 1000000
#define SECOND 1000000000
#define ALL DRM_SYNCOBJ_WAIT_FLAGS_WAIT_ALL
#define FOR_SUBMIT DRM_SYNCOBJ_WAIT_FLAGS_WAIT_FOR_SUBMIT
#define AVAILABLE DRM_SYNCOBJ_WAIT_FLAGS_WAIT_AVAILABLE
#define LAST DRM_SYNCOBJ_QUERY_FLAGS_LAST_SUBMITTED

#ifndef DRM_IOCTL_SYNCOBJ_EVENTFD
struct drm_syncobj_eventfd {
    __u32 handle, flags;
    __u64 point;
    __s32 fd;
    __u32 pad;
};
#define DRM_IOCTL_SYNCOBJ_EVENTFD DRM_IOWR(0xCF, struct drm_syncobj_eventfd)
#endif

static int opened(void)
{
    int fd = open("/dev/dri/card0", O_RDWR | O_CLOEXEC);

    if (fd < 0) {
        printf("no card: %s\n", strerror(errno));
        exit(2);
    }
    return fd;
}

static const char *said(int result)
{
    return result == 0 ? "done" : strerrorname_np(errno);
}

static int64_t now(void)
{
    struct timespec time;

    clock_gettime(CLOCK_MONOTONIC, &time);
    return (int64_t)time.tv_sec * SECOND + time.tv_nsec;
}

static void pause_for(int milliseconds)
{
    poll(NULL, 0, milliseconds);
}

static uint32_t created(int fd, uint32_t flags)
{
    uint32_t handle = 0;

    if (drmSyncobjCreate(fd, flags, &handle) != 0)
        printf("create: %s\n", strerror(errno));
    return handle;
}

static bool is_readable(int fd)
{
    struct pollfd waited = {fd, POLLIN, 0};

    return poll(&waited, 1, 0) == 1 && (waited.revents & POLLIN);
}

static int waits(int fd, uint32_t *handles, unsigned count, int milliseconds, uint32_t flags,
                 uint32_t *first)
{
    int64_t until = milliseconds < 0 ? INT64_MAX : now() + (int64_t)milliseconds * MILLISECOND;

    *first = 77;
    return drmSyncobjWait(fd, handles, count, until, flags, first);
}

/* Prints what a wait returns and which object came first. */
static void tell_wait(int fd, const char *what, uint32_t *handles, unsigned count, uint32_t flags)
{
    uint32_t first;
    int result = waits(fd, handles, count, 20, flags, &first);

    printf("%s: %s, first %d\n", what, said(result), (int)first);
}

static void objects(void)
{
    int fd = opened(), other = opened();
    uint32_t handles[3] = {created(fd, 0), created(fd, DRM_SYNCOBJ_CREATE_SIGNALED),
                           created(fd, 0)};

    printf("handles %u %u %u, another file's %u\n", handles[0], handles[1], handles[2],
           created(other, 0));
    printf("destroy: %s\n", said(drmSyncobjDestroy(fd, handles[0])));
    printf("again: %s\n", said(drmSyncobjDestroy(fd, handles[0])));
    printf("the next is %u\n", created(fd, 0));
    tell_wait(fd, "without a fence", handles, 1, 0);
    tell_wait(fd, "for submit", handles, 1, FOR_SUBMIT);
    tell_wait(fd, "signaled", handles + 1, 1, 0);
    tell_wait(fd, "one without a fence", handles, 2, 0);
    tell_wait(fd, "any, for submit", handles, 3, FOR_SUBMIT);
    tell_wait(fd, "all, for submit", handles, 3, ALL | FOR_SUBMIT);
    printf("signal: %s\n", said(drmSyncobjSignal(fd, handles, 3)));
    tell_wait(fd, "all", handles, 3, ALL);
    printf("reset: %s\n", said(drmSyncobjReset(fd, handles + 1, 1)));
    tell_wait(fd, "all of which one is reset", handles, 3, ALL);
    tell_wait(fd, "another file's handle", (uint32_t[]){9}, 1, 0);
}

static void tell_points(int fd, uint32_t *handles, unsigned count, const char *what)
{
    uint64_t points[2] = {99, 99}, last[2] = {99, 99};
    int failed = drmSyncobjQuery(fd, handles, points, count);

    drmSyncobjQuery2(fd, handles, last, count, LAST);
    printf("%s: %s, points %" PRIu64 " %" PRIu64 ", last %" PRIu64 " %" PRIu64 "\n", what,
           said(failed), points[0], points[1], last[0], last[1]);
}

static void tell_timeline_wait(int fd, const char *what, uint32_t handle, uint64_t point,
                               uint32_t flags)
{
    uint32_t first = 77;
    int result =
        drmSyncobjTimelineWait(fd, &handle, &point, 1, now() + 20 * MILLISECOND, flags, &first);

    printf("%s: %s, first %u\n", what, said(result), first);
}

static void timelines(void)
{
    int fd = opened();
    uint32_t handles[2] = {created(fd, 0), created(fd, DRM_SYNCOBJ_CREATE_SIGNALED)};

    tell_points(fd, handles, 2, "without points");
    printf("signal 5 and 7: %s\n",
           said(drmSyncobjTimelineSignal(fd, handles, (uint64_t[]){5, 7}, 2)));
    tell_points(fd, handles, 2, "then");
    tell_timeline_wait(fd, "wait for 3", handles[0], 3, 0);
    tell_timeline_wait(fd, "wait for 5", handles[0], 5, 0);
    tell_timeline_wait(fd, "wait for 6", handles[0], 6, 0);
    tell_timeline_wait(fd, "wait for 6, for submit", handles[0], 6, FOR_SUBMIT);
    tell_timeline_wait(fd, "wait for 6, available", handles[0], 6, AVAILABLE);
    printf("signal 3: %s\n", said(drmSyncobjTimelineSignal(fd, handles, (uint64_t[]){3}, 1)));
    tell_points(fd, handles, 2, "out of order");
    printf("transfer 7 to 9: %s\n", said(drmSyncobjTransfer(fd, handles[0], 9, handles[1], 7, 0)));
    tell_points(fd, handles, 2, "transferred");
    printf("transfer 8: %s\n", said(drmSyncobjTransfer(fd, handles[0], 10, handles[1], 8, 0)));
    printf("reset: %s\n", said(drmSyncobjReset(fd, handles, 2)));
    printf("transfer to a binary one: %s\n",
           said(drmSyncobjTransfer(fd, handles[0], 0, handles[1], 0, 0)));
    tell_points(fd, handles, 2, "reset");
}

/* Sends a descriptor, or receives one. */
static void send_file(int socket, int fd)
{
    char byte = 0, room[CMSG_SPACE(sizeof fd)];
    struct iovec part = {&byte, 1};
    struct msghdr message = {
        .msg_iov = &part, .msg_iovlen = 1, .msg_control = room, .msg_controllen = sizeof room};
    struct cmsghdr *head = CMSG_FIRSTHDR(&message);

    head->cmsg_level = SOL_SOCKET;
    head->cmsg_type = SCM_RIGHTS;
    head->cmsg_len = CMSG_LEN(sizeof fd);
    memcpy(CMSG_DATA(head), &fd, sizeof fd);
    sendmsg(socket, &message, 0);
}

static int received_file(int socket)
{
    char byte, room[CMSG_SPACE(sizeof(int))];
    struct iovec part = {&byte, 1};
    struct msghdr message = {
        .msg_iov = &part, .msg_iovlen = 1, .msg_control = room, .msg_controllen = sizeof room};
    int fd = -1;

    if (recvmsg(socket, &message, MSG_CMSG_CLOEXEC) > 0 && CMSG_FIRSTHDR(&message) != NULL)
        memcpy(&fd, CMSG_DATA(CMSG_FIRSTHDR(&message)), sizeof fd);
    return fd;
}

static int ends[2];

/* Runs a function in a child that has the other end of a socket. */
static pid_t begin(void (*run)(int socket))
{
    pid_t child;

    socketpair(AF_UNIX, SOCK_SEQPACKET | SOCK_CLOEXEC, 0, ends);
    fflush(stdout);
    child = fork();
    if (child == 0) {
        close(ends[0]);
        run(ends[1]);
        fflush(stdout);
        _exit(0);
    }
    close(ends[1]);
    return child;
}

static void end(pid_t child)
{
    int status = 0;

    waitpid(child, &status, 0);
    if (status != 0)
        printf("status %x\n", (unsigned)status);
}

/* Waits for an object of another process, and then for a point of it. */
static void wait_for_another(int socket)
{
    int fd = opened(), file = received_file(socket);
    uint32_t handle = 0, first;
    uint64_t point = 3;
    int64_t begun = now();
    int failed = drmSyncobjFDToHandle(fd, file, &handle), result;

    close(file);
    printf("import: %s, handle %u\n", said(failed), handle);
    write(socket, "", 1);
    result = waits(fd, &handle, 1, -1, FOR_SUBMIT, &first);
    printf("wait: %s, first %u, waited %d\n", said(result), first,
           now() - begun >= 100 * MILLISECOND);
    drmSyncobjReset(fd, &handle, 1);
    write(socket, "", 1);
    result = drmSyncobjTimelineWait(fd, &handle, &point, 1, INT64_MAX, FOR_SUBMIT, &first);
    printf("wait for a point: %s, first %u\n", said(result), first);
}

static void shared(void)
{
    int fd = opened(), file = -1, failed;
    uint32_t handle = created(fd, 0);
    pid_t child = begin(wait_for_another);
    uint64_t point = 3;
    char byte;

    failed = drmSyncobjHandleToFD(fd, handle, &file);
    printf("export: %s, closed at exec %d\n", said(failed), fcntl(file, F_GETFD) == FD_CLOEXEC);
    fflush(stdout);
    send_file(ends[0], file);
    close(file);
    read(ends[0], &byte, 1);
    pause_for(150);
    drmSyncobjSignal(fd, &handle, 1);
    /* who was woken has the answer, whatever happens to the object then */
    drmSyncobjReset(fd, &handle, 1);
    read(ends[0], &byte, 1);
    pause_for(50);
    drmSyncobjTimelineSignal(fd, &handle, &point, 1);
    end(child);
}

static void wait_and_be_killed(int socket)
{
    int fd = opened(), file = received_file(socket);
    uint32_t handle = 0, first;

    drmSyncobjFDToHandle(fd, file, &handle);
    write(socket, "", 1);
    waits(fd, &handle, 1, -1, FOR_SUBMIT, &first);
    printf("not killed\n");
}

/* A waiter that is killed, and one whose object's other handles are closed meanwhile. */
static void killed(void)
{
    int fd = opened(), file, at;
    uint32_t handle = created(fd, 0), first;
    char byte;

    drmSyncobjHandleToFD(fd, handle, &file);
    for (at = 0; at < 20; at++) {
        pid_t child = begin(wait_and_be_killed);

        send_file(ends[0], file);
        read(ends[0], &byte, 1);
        pause_for(5);
        kill(child, SIGKILL);
        waitpid(child, NULL, 0);
        close(ends[0]);
    }
    drmSyncobjSignal(fd, &handle, 1);
    printf("after 20 kills: %s\n", said(waits(fd, &handle, 1, 0, 0, &first)));
}

static volatile sig_atomic_t alarms;

static void count_alarm(int number)
{
    (void)number;
    alarms++;
}

/* The request itself, which libdrm makes again. */
static void interrupted(void)
{
    const struct itimerval soon = {{0, 0}, {0, 100000}};
    struct sigaction action = {.sa_handler = count_alarm};
    int fd = opened(), result;
    uint32_t handle = created(fd, 0);
    struct drm_syncobj_wait wait = {.handles = (uintptr_t)&handle,
                                    .timeout_nsec = INT64_MAX,
                                    .count_handles = 1,
                                    .flags = FOR_SUBMIT};

    sigaction(SIGALRM, &action, NULL);
    setitimer(ITIMER_REAL, &soon, NULL);
    result = ioctl(fd, DRM_IOCTL_SYNCOBJ_WAIT, &wait);
    printf("interrupted: %s, alarms %d\n", said(result), alarms);
    wait.timeout_nsec = now() + 50 * MILLISECOND;
    result = ioctl(fd, DRM_IOCTL_SYNCOBJ_WAIT, &wait);
    printf("then: %s, in time %d\n", said(result),
           now() >= wait.timeout_nsec && now() < wait.timeout_nsec + 200 * MILLISECOND);
}

static int sync_file_of(int fd, uint32_t handle)
{
    int file = -1;

    if (drmSyncobjExportSyncFile(fd, handle, &file) != 0)
        printf("no sync file: %s\n", strerror(errno));
    return file;
}

static void tell_info(const char *what, int file)
{
    struct sync_fence_info fences[4] = {{.status = 9}};
    struct sync_file_info info = {.num_fences = 4, .sync_fence_info = (uintptr_t)fences};
    int failed = ioctl(file, SYNC_IOC_FILE_INFO, &info);

    printf("%s: %s, status %d, %u fences, the first %s of %s, status %d, time %d\n", what,
           said(failed), info.status, info.num_fences, fences[0].obj_name, fences[0].driver_name,
           fences[0].status,
           fences[0].timestamp_ns > 0 && fences[0].timestamp_ns <= (uint64_t)now());
}

static void tell_file(int socket)
{
    int file = received_file(socket), copy = dup(file);

    close(file);
    printf("passed: readable %d\n", is_readable(copy));
    tell_info("passed", copy);
}

static void sync_files(void)
{
    int fd = opened(), file, copy, merged, failed;
    uint32_t handle = created(fd, DRM_SYNCOBJ_CREATE_SIGNALED), other = created(fd, 0);
    struct sync_merge_data merge = {.name = "both", .fd2 = -1};
    struct sync_file_info info = {.pad = 0};
    pid_t child = begin(tell_file);

    file = sync_file_of(fd, handle);
    printf("readable %d\n", is_readable(file));
    drmSyncobjReset(fd, &handle, 1);
    tell_info("of an object that is reset", file);
    fflush(stdout);
    copy = dup(file);
    send_file(ends[0], file);
    end(child);
    close(file);
    printf("import: %s\n", said(drmSyncobjImportSyncFile(fd, other, copy)));
    tell_wait(fd, "imported", &other, 1, 0);
    printf("merge with no descriptor: %s\n", said(ioctl(copy, SYNC_IOC_MERGE, &merge)));
    merge.fd2 = copy;
    printf("merge: %s\n", said(ioctl(copy, SYNC_IOC_MERGE, &merge)));
    merged = merge.fence;
    printf("merged: readable %d, closed at exec %d\n", is_readable(merged),
           fcntl(merged, F_GETFD) == FD_CLOEXEC);
    failed = ioctl(merged, SYNC_IOC_FILE_INFO, &info);
    printf("info: %s, name %s, %u fences, status %d\n", said(failed), info.name, info.num_fences,
           info.status);
    printf("another request: %s\n", said(ioctl(copy, DRM_IOCTL_VERSION, &info)));
    printf("import of a fence as an object: %s\n", said(drmSyncobjFDToHandle(fd, copy, &handle)));
    printf("import of a node as a fence: %s\n", said(drmSyncobjImportSyncFile(fd, other, fd)));
}

static void eventfds(void)
{
    int fd = opened(), counter = eventfd(0, EFD_CLOEXEC | EFD_NONBLOCK), failed;
    uint32_t handle = created(fd, 0);
    struct drm_syncobj_eventfd asked = {.handle = handle, .point = 2, .fd = counter};
    uint64_t count = 0, points[] = {1, 2};

    failed = ioctl(fd, DRM_IOCTL_SYNCOBJ_EVENTFD, &asked);
    printf("eventfd: %s\n", said(failed));
    drmSyncobjTimelineSignal(fd, &handle, &points[0], 1);
    printf("point 1: readable %d\n", is_readable(counter));
    drmSyncobjTimelineSignal(fd, &handle, &points[1], 1);
    printf("point 2: readable %d\n", is_readable(counter));
    read(counter, &count, sizeof count);
    printf("count %" PRIu64 "\n", count);
    failed = ioctl(fd, DRM_IOCTL_SYNCOBJ_EVENTFD, &asked);
    printf("again: %s, readable %d\n", said(failed), is_readable(counter));
    asked.fd = fd;
    printf("of a node: %s\n", said(ioctl(fd, DRM_IOCTL_SYNCOBJ_EVENTFD, &asked)));
    asked.fd = 999;
    printf("of no descriptor: %s\n", said(ioctl(fd, DRM_IOCTL_SYNCOBJ_EVENTFD, &asked)));
    /* an object with the highest count delays no other request */
    count = UINT64_MAX - 1;
    write(counter, &count, sizeof count);
    asked.fd = counter;
    asked.point = 3;
    points[0] = 3;
    ioctl(fd, DRM_IOCTL_SYNCOBJ_EVENTFD, &asked);
    printf("highest count: %s\n", said(drmSyncobjTimelineSignal(fd, &handle, points, 1)));
}

/* Commits on the two CRTCs of the test topology. A frame of the first takes a second. */
#define CRTC 1
#define OTHER_CRTC 2
#define PLANE 3
#define OTHER_PLANE 4
#define NONBLOCK DRM_MODE_ATOMIC_NONBLOCK
#define EVENT DRM_MODE_PAGE_FLIP_EVENT
#define SIDE 64
#define FRAME 1000

struct set {
    uint32_t object;
    const char *name;
    uint64_t value;
};

/* The id of a property of an object, and its value. */
static uint32_t property(int fd, uint32_t object, const char *name, uint64_t *value)
{
    drmModeObjectProperties *all = drmModeObjectGetProperties(fd, object, DRM_MODE_OBJECT_ANY);
    uint32_t found = 0, at;

    for (at = 0; all != NULL && at < all->count_props; at++) {
        drmModePropertyRes *each = drmModeGetProperty(fd, all->props[at]);

        if (each != NULL && strcmp(each->name, name) == 0) {
            found = all->props[at];
            *value = all->prop_values[at];
        }
        drmModeFreeProperty(each);
    }
    drmModeFreeObjectProperties(all);
    return found;
}

static uint64_t value_of(int fd, uint32_t object, const char *name)
{
    uint64_t value = 0;

    property(fd, object, name, &value);
    return value;
}

/* The same, which is looked up once. */
static uint32_t known_property(int fd, uint32_t object, const char *name)
{
    static struct {
        uint32_t object, id;
        const char *name;
    } known[32];
    uint64_t value;
    size_t at = 0;

    while (at < 31 && known[at].id != 0
           && (known[at].object != object || strcmp(known[at].name, name) != 0))
        at++;
    if (known[at].id == 0) {
        known[at].object = object;
        known[at].name = name;
        known[at].id = property(fd, object, name, &value);
    }
    return known[at].id;
}

static int commit(int fd, uint32_t flags, const struct set *sets, size_t count)
{
    drmModeAtomicReq *request = drmModeAtomicAlloc();
    size_t at;
    int result, error;

    for (at = 0; at < count; at++)
        drmModeAtomicAddProperty(request, sets[at].object,
                                 known_property(fd, sets[at].object, sets[at].name),
                                 sets[at].value);
    result = drmModeAtomicCommit(fd, request, flags, NULL);
    error = errno;
    drmModeAtomicFree(request);
    errno = error;
    return result;
}

#define COMMIT(fd, flags, ...)                                                                     \
    commit(fd, flags, (const struct set[]){__VA_ARGS__},                                           \
           sizeof((const struct set[]){__VA_ARGS__}) / sizeof(struct set))

static uint32_t make_fb(int fd)
{
    uint32_t handle, pitch, id = 0;
    uint64_t size;

    if (drmModeCreateDumbBuffer(fd, SIDE, SIDE, 32, 0, &handle, &pitch, &size) == 0)
        drmModeAddFB(fd, SIDE, SIDE, 24, 32, pitch, handle, &id);
    return id;
}

static void light(int fd, uint32_t crtc, uint32_t plane, uint32_t connector, uint32_t fb,
                  uint32_t clock)
{
    const drmModeModeInfo mode = {.clock = clock,
                                  .hdisplay = SIDE,
                                  .hsync_start = SIDE,
                                  .hsync_end = SIDE,
                                  .htotal = 1000,
                                  .vdisplay = SIDE,
                                  .vsync_start = SIDE,
                                  .vsync_end = SIDE,
                                  .vtotal = 200};
    uint32_t blob = 0;

    drmModeCreatePropertyBlob(fd, &mode, sizeof mode, &blob);
    if (COMMIT(fd, DRM_MODE_ATOMIC_ALLOW_MODESET, {crtc, "ACTIVE", 1}, {crtc, "MODE_ID", blob},
               {connector, "CRTC_ID", crtc}, {plane, "CRTC_ID", crtc}, {plane, "FB_ID", fb},
               {plane, "SRC_W", SIDE << 16}, {plane, "SRC_H", SIDE << 16}, {plane, "CRTC_W", SIDE},
               {plane, "CRTC_H", SIDE})
        != 0)
        printf("not lit: %s\n", strerror(errno));
}

/* A card with two framebuffers, of which both CRTCs show the first */
struct card {
    int fd;
    uint32_t fbs[2];
};

static struct card lit_card(void)
{
    struct card card = {.fd = opened()};

    drmSetClientCap(card.fd, DRM_CLIENT_CAP_ATOMIC, 1);
    card.fbs[0] = make_fb(card.fd);
    card.fbs[1] = make_fb(card.fd);
    known_property(card.fd, OTHER_PLANE, "IN_FENCE_FD");
    known_property(card.fd, OTHER_CRTC, "OUT_FENCE_PTR");
    known_property(card.fd, CRTC, "OUT_FENCE_PTR");
    light(card.fd, OTHER_CRTC, OTHER_PLANE, 8, card.fbs[0], 1000);
    light(card.fd, CRTC, PLANE, 7, card.fbs[0], 200);
    return card;
}

static bool becomes_readable(int fd, int milliseconds)
{
    struct pollfd waited = {fd, POLLIN, 0};

    return poll(&waited, 1, milliseconds) == 1 && (waited.revents & POLLIN);
}

/* The time of the next event, in microseconds, or 0. */
static uint64_t event_of(int fd, int milliseconds)
{
    struct drm_event_vblank event = {.tv_sec = 0};

    if (!becomes_readable(fd, milliseconds) || read(fd, &event, sizeof event) != sizeof event)
        return 0;
    return (uint64_t)event.tv_sec * 1000000 + event.tv_usec;
}

static uint64_t time_of(int file)
{
    struct sync_fence_info fence = {.status = 0};
    struct sync_file_info info = {.num_fences = 1, .sync_fence_info = (uintptr_t)&fence};

    return ioctl(file, SYNC_IOC_FILE_INFO, &info) == 0 ? fence.timestamp_ns / 1000 : 0;
}

static void out_fences(void)
{
    struct card card = lit_card();
    int32_t file = -5, other = -5, none = 7;
    int failed = COMMIT(card.fd, NONBLOCK | EVENT, {PLANE, "FB_ID", card.fbs[1]},
                        {CRTC, "OUT_FENCE_PTR", (uintptr_t)&file},
                        {OTHER_CRTC, "OUT_FENCE_PTR", (uintptr_t)&other});
    uint64_t time, other_time;

    printf("commit: %s, fences %d, closed at exec %d\n", said(failed), file >= 0 && other >= 0,
           fcntl(file, F_GETFD) == FD_CLOEXEC);
    printf("readable %d, soon the other %d, this one %d\n", is_readable(file),
           becomes_readable(other, FRAME / 2), is_readable(file));
    other_time = event_of(card.fd, FRAME / 2);
    time = event_of(card.fd, 2 * FRAME);
    printf("then %d, at the time of the event %d %d\n", is_readable(file), time == time_of(file),
           other_time == time_of(other));
    failed = COMMIT(card.fd, DRM_MODE_ATOMIC_TEST_ONLY, {PLANE, "FB_ID", card.fbs[0]},
                    {CRTC, "OUT_FENCE_PTR", (uintptr_t)&none});
    printf("test: %s, %d\n", said(failed), none);
    none = 7;
    failed =
        COMMIT(card.fd, 0, {CRTC, "OUT_FENCE_PTR", (uintptr_t)&none}, {PLANE, "SRC_W", 999 << 16});
    printf("refused: %s, %d\n", said(failed), none);
    printf("wrong address: %s\n", said(COMMIT(card.fd, 0, {CRTC, "OUT_FENCE_PTR", 4096})));
    printf("no address: %s\n", said(COMMIT(card.fd, 0, {CRTC, "OUT_FENCE_PTR", 0})));
    failed = COMMIT(card.fd, 0, {CRTC, "OUT_FENCE_PTR", (uintptr_t)&file});
    printf("blocks: %s, readable %d\n", said(failed), is_readable(file));
    COMMIT(card.fd, DRM_MODE_ATOMIC_ALLOW_MODESET, {CRTC, "ACTIVE", 0});
    failed = COMMIT(card.fd, 0, {CRTC, "OUT_FENCE_PTR", (uintptr_t)&none});
    printf("dark: %s, %d\n", said(failed), none);
}

/* A fence that is signaled in a frame. */
static int32_t fence_of_flip(const struct card *card, int at)
{
    int32_t file = -1;

    if (COMMIT(card->fd, NONBLOCK, {PLANE, "FB_ID", card->fbs[at]},
               {CRTC, "OUT_FENCE_PTR", (uintptr_t)&file})
        != 0)
        printf("no flip: %s\n", strerror(errno));
    return file;
}

static void tell_fence(int socket)
{
    int file = received_file(socket), fd = opened(), failed;
    uint32_t handle = created(fd, 0), first;

    failed = drmSyncobjImportSyncFile(fd, handle, file);
    printf("another process: readable %d, import %s", is_readable(file), said(failed));
    failed = waits(fd, &handle, 1, 0, 0, &first);
    printf(", wait %s", said(failed));
    failed = waits(fd, &handle, 1, 2 * FRAME, 0, &first);
    printf(", then %s, readable %d\n", said(failed), is_readable(file));
    tell_info("it", file);
}

/* Another process waits for the fence of a flip. A fence of two waits for both. */
static void passed_fence(void)
{
    struct card card = lit_card();
    pid_t child = begin(tell_fence);
    int32_t file = fence_of_flip(&card, 1), other = -1;
    struct sync_merge_data merge = {.name = "both"};

    COMMIT(card.fd, NONBLOCK, {OTHER_CRTC, "OUT_FENCE_PTR", (uintptr_t)&other});
    merge.fd2 = other;
    ioctl(file, SYNC_IOC_MERGE, &merge);
    send_file(ends[0], file);
    close(file);
    becomes_readable(other, FRAME / 2);
    printf("one of two %d, both %d\n", is_readable(other), is_readable(merge.fence));
    fflush(stdout);
    end(child);
    printf("both %d\n", becomes_readable(merge.fence, FRAME));
    tell_info("both", merge.fence);
}

static void in_fences(void)
{
    struct card card = lit_card();
    int fd = card.fd, failed;
    int32_t out = -1, fence;
    uint64_t fb = card.fbs[1], begun, time;

    printf("values %d %d\n", (int)value_of(fd, PLANE, "IN_FENCE_FD"),
           (int)value_of(fd, CRTC, "OUT_FENCE_PTR"));
    begun = (uint64_t)now();
    /* so that the next one is a whole frame later */
    COMMIT(fd, 0, {PLANE, "FB_ID", card.fbs[0]});
    fence = fence_of_flip(&card, 1);
    failed = COMMIT(fd, NONBLOCK | EVENT, {OTHER_PLANE, "FB_ID", fb},
                    {OTHER_PLANE, "IN_FENCE_FD", (uint64_t)fence},
                    {OTHER_CRTC, "OUT_FENCE_PTR", (uintptr_t)&out});
    printf("does not block: %s, changed %d, readable %d\n", said(failed),
           value_of(fd, OTHER_PLANE, "FB_ID") == fb, is_readable(out));
    printf("again: %s\n", said(COMMIT(fd, NONBLOCK, {OTHER_PLANE, "FB_ID", fb})));
    printf("flip: %s\n", said(drmModePageFlip(fd, OTHER_CRTC, card.fbs[0], 0, NULL)));
    time = event_of(fd, 2 * FRAME);
    printf("event later %d, changed %d, fence %d at the same time %d, after the other %d\n",
           time * 1000 > begun + (uint64_t)FRAME / 2 * MILLISECOND,
           value_of(fd, OTHER_PLANE, "FB_ID") == fb, is_readable(out), time == time_of(out),
           time_of(out) > time_of(fence));
    fence = fence_of_flip(&card, 0);
    failed = COMMIT(fd, 0, {OTHER_PLANE, "FB_ID", card.fbs[0]},
                    {OTHER_PLANE, "IN_FENCE_FD", (uint64_t)fence});
    printf("blocks: %s, signaled %d\n", said(failed), is_readable(fence));
    failed = COMMIT(fd, NONBLOCK, {OTHER_PLANE, "FB_ID", fb},
                    {OTHER_PLANE, "IN_FENCE_FD", (uint64_t)fence});
    printf("signaled: %s, changed %d\n", said(failed), value_of(fd, OTHER_PLANE, "FB_ID") == fb);
    pause_for(FRAME / 2);
    printf("no fence: %s\n", said(COMMIT(fd, 0, {OTHER_PLANE, "IN_FENCE_FD", (uint64_t)-1})));
    printf("a node: %s\n", said(COMMIT(fd, 0, {OTHER_PLANE, "IN_FENCE_FD", (uint64_t)fd})));
    printf("not open: %s\n", said(COMMIT(fd, 0, {OTHER_PLANE, "IN_FENCE_FD", 999})));
    printf("-2: %s\n", said(COMMIT(fd, 0, {OTHER_PLANE, "IN_FENCE_FD", (uint64_t)-2})));
}

/* What happens to a commit that waits: other requests wait for it, what it shows is removed, and
 * its file is closed. */
static void waiting_commits(void)
{
    struct card card = lit_card();
    int fd = card.fd, failed;
    int32_t out = -1, fence = fence_of_flip(&card, 1);
    drmModeCrtc *crtc;

    COMMIT(fd, NONBLOCK, {OTHER_PLANE, "FB_ID", card.fbs[1]},
           {OTHER_PLANE, "IN_FENCE_FD", (uint64_t)fence});
    failed = drmModeSetCrtc(fd, OTHER_CRTC, 0, 0, 0, NULL, 0, NULL);
    crtc = drmModeGetCrtc(fd, OTHER_CRTC);
    printf("darkens: %s, after the fence %d, shows %u\n", said(failed), is_readable(fence),
           crtc->buffer_id);
    light(fd, OTHER_CRTC, OTHER_PLANE, 8, card.fbs[0], 1000);
    COMMIT(fd, 0, {PLANE, "FB_ID", card.fbs[1]});
    fence = fence_of_flip(&card, 0);
    COMMIT(fd, NONBLOCK | EVENT, {OTHER_PLANE, "FB_ID", card.fbs[1]},
           {OTHER_PLANE, "IN_FENCE_FD", (uint64_t)fence},
           {OTHER_CRTC, "OUT_FENCE_PTR", (uintptr_t)&out});
    drmModeRmFB(fd, card.fbs[1]);
    failed = event_of(fd, 2 * FRAME) != 0;
    printf("removed: event %d, readable %d\n", failed, is_readable(out));
    card.fbs[1] = make_fb(fd);
    fence = fence_of_flip(&card, 1);
    failed = COMMIT(fd, NONBLOCK, {OTHER_PLANE, "FB_ID", card.fbs[1]},
                    {OTHER_PLANE, "IN_FENCE_FD", (uint64_t)fence},
                    {OTHER_CRTC, "OUT_FENCE_PTR", (uintptr_t)&out});
    close(fd);
    printf("closed: %s, readable %d\n", said(failed), becomes_readable(out, FRAME));
}

int main(int count, char **words)
{
    static const struct {
        const char *name;
        void (*run)(void);
    } cases[] = {{"objects", objects},
                 {"timelines", timelines},
                 {"shared", shared},
                 {"killed", killed},
                 {"interrupted", interrupted},
                 {"sync-files", sync_files},
                 {"eventfds", eventfds},
                 {"out-fences", out_fences},
                 {"in-fences", in_fences},
                 {"passed-fence", passed_fence},
                 {"waiting-commits", waiting_commits}};
    size_t at;

    for (at = 0; count == 2 && at < sizeof cases / sizeof cases[0]; at++) {
        if (strcmp(words[1], cases[at].name) == 0) {
            cases[at].run();
            fflush(stdout);
            return 0;
        }
    }
    return 2;
}
