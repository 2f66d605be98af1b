/* For tests: frame loops, through libdrm alone. The first argument says what is tried; a line is
 * written for each thing that was found, and the tests know what it must be. Where times are of
 * matter the modes are slow, so that a busy machine is quick enough.
 */
#define _GNU_SOURCE
#include <errno.h>
#include <fcntl.h>
#include <poll.h>
#include <pthread.h>
#include <signal.h>
#include <stdatomic.h>
#include <stdbool.h>
#include <stdint.h>
#include <stdio.h>
#include <stdlib.h>
#include <string.h>
#include <sys/epoll.h>
#include <sys/prctl.h>
#include <sys/select.h>
#include <sys/time.h>
#include <sys/wait.h>
#include <time.h>
#include <unistd.h>
#include <xf86drm.h>
#include <xf86drmMode.h>

#define CARD "/dev/dri/card0"
#define SECOND 1000000000
#define MILLISECOND 1000000

/* Mode objects of the server's topology */
enum { CRTC = 1, OTHER_CRTC = 2, OTHER_PLANE = 4, CONNECTOR = 7, OTHER_CONNECTOR = 8 };

/* Returns a mode in which a frame takes this time, of at least 1. */
static drmModeModeInfo mode_of(int milliseconds)
{
    drmModeModeInfo mode = {.clock = 60000000 / (uint32_t)milliseconds,
                            .hdisplay = 64,
                            .hsync_start = 64,
                            .hsync_end = 64,
                            .htotal = 60000,
                            .vdisplay = 64,
                            .vsync_start = 64,
                            .vsync_end = 64,
                            .vtotal = 1000};

    snprintf(mode.name, sizeof mode.name, "%d ms", milliseconds);
    return mode;
}

static int64_t now(void)
{
    struct timespec time;

    clock_gettime(CLOCK_MONOTONIC, &time);
    return (int64_t)time.tv_sec * SECOND + time.tv_nsec;
}

static int open_card(int flags)
{
    int fd = open(CARD, O_RDWR | O_CLOEXEC | flags);

    if (fd < 0) {
        perror(CARD);
        exit(2);
    }
    return fd;
}

static uint32_t make_fb_of(int fd, uint32_t width, uint32_t height, uint8_t depth)
{
    uint8_t bits = depth == 24 ? 32 : depth;
    struct drm_mode_create_dumb dumb = {.width = width, .height = height, .bpp = bits};
    uint32_t id = 0;

    if (drmIoctl(fd, DRM_IOCTL_MODE_CREATE_DUMB, &dumb) != 0
        || drmModeAddFB(fd, width, height, depth, bits, dumb.pitch, dumb.handle, &id) != 0)
        exit(2);
    return id;
}

static uint32_t make_fb(int fd)
{
    return make_fb_of(fd, 64, 64, 24);
}

/* Lights a CRTC, and returns the framebuffer that it shows. */
static uint32_t light(int fd, uint32_t crtc, uint32_t connector, int milliseconds)
{
    drmModeModeInfo mode = mode_of(milliseconds);
    uint32_t fb = make_fb(fd);

    if (drmModeSetCrtc(fd, crtc, fb, 0, 0, &connector, 1, &mode) != 0) {
        perror("SETCRTC");
        exit(2);
    }
    return fb;
}

static const char *error_of(int failed)
{
    return failed == 0 ? "done" : strerrorname_np(failed == -1 ? errno : -failed);
}

static void say(const char *what, int failed)
{
    printf("%s: %s\n", what, error_of(failed));
}

/* What drmHandleEvent told of last */
static struct {
    int count;
    unsigned sequence, crtc;
    int64_t time;
    void *data;
} told;

static void tell(int fd, unsigned sequence, unsigned seconds, unsigned microseconds, unsigned crtc,
                 void *data)
{
    (void)fd;
    told.count++;
    told.sequence = sequence;
    told.crtc = crtc;
    told.time = (int64_t)seconds * SECOND + (int64_t)microseconds * 1000;
    told.data = data;
}

static void tell_vblank(int fd, unsigned sequence, unsigned seconds, unsigned microseconds,
                        void *data)
{
    tell(fd, sequence, seconds, microseconds, 0, data);
}

static void tell_sequence(int fd, uint64_t sequence, uint64_t nanoseconds, uint64_t data)
{
    tell(fd, (unsigned)sequence, 0, 0, 0, (void *)(uintptr_t)data);
    told.time = (int64_t)nanoseconds;
}

static drmEventContext context = {
    .version = 4,
    .vblank_handler = tell_vblank,
    .page_flip_handler2 = tell,
    .sequence_handler = tell_sequence,
};

/* Waits until an event can be read, and lets libdrm tell of what there is. */
static void await(int fd)
{
    struct pollfd waited = {fd, POLLIN, 0};

    if (poll(&waited, 1, 20000) != 1 || waited.revents != POLLIN) {
        puts("nothing came");
        exit(1);
    }
    drmHandleEvent(fd, &context);
}

/* Frames one after the other, in a listed mode: times are those of the numbers, and none is told
 * of before its time. */
static void show_frames(int frames)
{
    int fd = open_card(O_NONBLOCK), at, early = 0, astray = 0, data;
    drmModeConnector *connector = drmModeGetConnector(fd, CONNECTOR);
    drmModeModeInfo mode = connector->modes[2];
    int64_t period = (int64_t)mode.htotal * mode.vtotal * MILLISECOND / mode.clock, first_time = 0,
            begun, end;
    uint32_t fbs[] = {make_fb_of(fd, mode.hdisplay, mode.vdisplay, 24),
                      make_fb_of(fd, mode.hdisplay, mode.vdisplay, 24)};
    uint32_t id = CONNECTOR, first = 0;

    say("shows a frame", drmModeSetCrtc(fd, CRTC, fbs[0], 0, 0, &id, 1, &mode));
    begun = now();
    for (at = 0; at < frames; at++) {
        if (drmModePageFlip(fd, CRTC, fbs[at % 2], DRM_MODE_PAGE_FLIP_EVENT, &data) != 0)
            say("flips", -errno);
        await(fd);
        early += now() < told.time;
        if (at == 0) {
            first = told.sequence;
            first_time = told.time;
        }
        astray += llabs(told.time - first_time - (int64_t)(told.sequence - first) * period) > 2000;
    }
    end = now();
    printf("frames %d, early %d, astray %d, of the CRTC %d, data %d\n", told.count, early, astray,
           told.crtc == CRTC, told.data == &data);
    /* the first one completes within a period, and each other one at least a period later */
    printf("not faster than the mode: %d, not slower than a tenth of it: %d\n",
           end - begun >= (frames - 1) * period, end - begun < 10 * frames * period);
}

/* A second flip before the first one completes. A busy machine may take longer than a frame. The
 * test runs the program again then.
 */
static void flip_too_early(void)
{
    enum { FRAME = 1000, TOO_SLOW = 75 };
    int fd = open_card(O_NONBLOCK);
    int64_t begun = now();
    uint32_t fb = light(fd, CRTC, CONNECTOR, FRAME);

    say("flips", drmModePageFlip(fd, CRTC, fb, DRM_MODE_PAGE_FLIP_EVENT, NULL));
    say("flips again", drmModePageFlip(fd, CRTC, fb, DRM_MODE_PAGE_FLIP_EVENT, NULL));
    say("flips again without an event", drmModePageFlip(fd, CRTC, fb, 0, NULL));
    if (now() - begun > (FRAME - 100) * (int64_t)MILLISECOND)
        exit(TOO_SLOW);
    await(fd);
    say("flips once it is told", drmModePageFlip(fd, CRTC, fb, 0, NULL));
    say("flips at once", drmModePageFlip(fd, CRTC, fb, DRM_MODE_PAGE_FLIP_EVENT, NULL));
    printf("events %d\n", told.count);
}

/* Sets a mode of 64 by 64 pixels from this corner of a framebuffer on. */
static void set_at(const char *what, int fd, uint32_t crtc, uint32_t fb, uint32_t x, uint32_t y)
{
    drmModeModeInfo mode = mode_of(10);
    uint32_t connector = CONNECTOR;

    say(what, drmModeSetCrtc(fd, crtc, fb, x, y, &connector, 1, &mode));
}

/* Modes that are larger than what is left of the framebuffer */
static void set_outside(void)
{
    int fd = open_card(O_NONBLOCK), other = open_card(O_NONBLOCK);
    uint32_t fb = make_fb(fd), wide = make_fb_of(fd, 128, 64, 24), none = 999;
    drmModeCrtc *found;
    drmModeModeInfo mode = mode_of(10);
    uint32_t at;

    set_at("the whole of it", fd, CRTC, fb, 0, 0);
    set_at("a column outside", fd, CRTC, fb, 1, 0);
    set_at("a row outside", fd, CRTC, fb, 0, 1);
    set_at("the right half", fd, CRTC, wide, 64, 0);
    found = drmModeGetCrtc(fd, CRTC);
    printf("from %u, %u\n", found->x, found->y);
    drmModeFreeCrtc(found);
    set_at("a column further", fd, CRTC, wide, 65, 0);
    set_at("too small", fd, CRTC, make_fb_of(fd, 63, 64, 24), 0, 0);
    set_at("too low", fd, CRTC, make_fb_of(fd, 64, 63, 24), 0, 0);
    set_at("too far", fd, CRTC, fb, 65536, 0);
    set_at("too far, and no CRTC", fd, CONNECTOR, fb, 0, 65536);
    set_at("no CRTC", fd, CONNECTOR, fb, 1, 0);
    set_at("no framebuffer", fd, CRTC, none, 1, 0);
    set_at("who isn't master", other, CRTC, fb, 1, 0);
    set_at("who isn't master, and too far", other, CRTC, fb, 65536, 0);
    say("no connector", drmModeSetCrtc(fd, CRTC, fb, 1, 0, &none, 1, &mode));
    for (at = 0; at < 2; at++)
        say(at == 0 ? "a plane's source" : "outside",
            drmModeSetPlane(fd, OTHER_PLANE, OTHER_CRTC, fb, 0, 0, 0, 64, 64, at, 0, 64 << 16,
                            64 << 16));
    say("outside, and no CRTC",
        drmModeSetPlane(fd, OTHER_PLANE, CONNECTOR, fb, 0, 0, 0, 64, 64, 1, 0, 64 << 16, 64 << 16));
    say("outside, on another CRTC",
        drmModeSetPlane(fd, OTHER_PLANE, CRTC, fb, 0, 0, 0, 64, 64, 1, 0, 64 << 16, 64 << 16));
    say("outside, and no plane",
        drmModeSetPlane(fd, CONNECTOR, CRTC, fb, 0, 0, 0, 64, 64, 1, 0, 64 << 16, 64 << 16));
    say("outside, by who isn't master", drmModeSetPlane(other, OTHER_PLANE, OTHER_CRTC, fb, 0, 0, 0,
                                                        64, 64, 1, 0, 64 << 16, 64 << 16));
    say("the framebuffer that it shows, outside",
        drmModeSetCrtc(fd, CRTC, (uint32_t)-1, 65, 0, &none, 1, &mode));
}

/* The framebuffer of another process, which this one knows nothing of. That lives as long as this.
 */
static uint32_t fb_of_another(uint32_t width)
{
    int ids[2];
    uint32_t id = 0;

    if (pipe(ids) != 0)
        exit(2);
    if (fork() == 0) {
        prctl(PR_SET_PDEATHSIG, SIGKILL);
        id = make_fb_of(open_card(O_NONBLOCK), width, 64, 24);
        if (write(ids[1], &id, sizeof id) != sizeof id)
            _exit(2);
        pause();
    }
    if (read(ids[0], &id, sizeof id) != sizeof id)
        exit(2);
    return id;
}

/* Flips to what is too small, or has another format */
static void flip_outside(void)
{
    int fd = open_card(O_NONBLOCK), other = open_card(O_NONBLOCK);
    uint32_t fb = make_fb(fd), wide = make_fb_of(fd, 128, 64, 24),
             small = make_fb_of(fd, 63, 64, 24);
    struct drm_mode_create_dumb dumb = {.width = 64, .height = 64, .bpp = 32};

    set_at("sets", fd, CRTC, fb, 0, 0);
    say("flips to a larger one", drmModePageFlip(fd, CRTC, wide, DRM_MODE_PAGE_FLIP_EVENT, NULL));
    await(fd);
    say("too small", drmModePageFlip(fd, CRTC, small, 0, NULL));
    say("too low", drmModePageFlip(fd, CRTC, make_fb_of(fd, 64, 63, 24), 0, NULL));
    say("another format", drmModePageFlip(fd, CRTC, make_fb_of(fd, 64, 64, 16), 0, NULL));
    say("another format, too small",
        drmModePageFlip(fd, CRTC, make_fb_of(fd, 63, 64, 16), 0, NULL));
    say("with alpha", drmModePageFlip(fd, CRTC, make_fb_of(fd, 64, 64, 32), 0, NULL));
    say("who isn't master", drmModePageFlip(other, CRTC, small, 0, NULL));
    say("flips", drmModePageFlip(fd, CRTC, fb, DRM_MODE_PAGE_FLIP_EVENT, NULL));
    say("too small before it completes", drmModePageFlip(fd, CRTC, small, 0, NULL));
    await(fd);
    set_at("sets the right half", fd, CRTC, wide, 64, 0);
    say("too small for that", drmModePageFlip(fd, CRTC, fb, 0, NULL));
    set_at("sets", fd, CRTC, fb, 0, 0);
    say("another process's",
        drmModePageFlip(fd, CRTC, fb_of_another(64), DRM_MODE_PAGE_FLIP_EVENT, NULL));
    await(fd);
    say("another process's, too small", drmModePageFlip(fd, CRTC, fb_of_another(63), 0, NULL));
    set_at("sets another process's", fd, CRTC, fb_of_another(64), 0, 0);
    set_at("sets another process's, outside", fd, CRTC, fb_of_another(64), 1, 0);
    drmIoctl(fd, DRM_IOCTL_MODE_CREATE_DUMB, &dumb);
    printf("handles %u\n", dumb.handle);
}

/* What flips are refused by, of a master and of another client */
static void refuse_flips(void)
{
    int fd = open_card(O_NONBLOCK), other = open_card(O_NONBLOCK);
    uint32_t fb = make_fb(fd);
    struct drm_mode_crtc_page_flip reserved = {.crtc_id = CRTC, .fb_id = fb, .reserved = 1};

    say("flips a dark CRTC", drmModePageFlip(fd, CRTC, fb, 0, NULL));
    light(fd, CRTC, CONNECTOR, 10);
    say("no CRTC", drmModePageFlip(fd, CONNECTOR, fb, 0, NULL));
    say("no framebuffer", drmModePageFlip(fd, CRTC, 999, 0, NULL));
    say("framebuffer 0", drmModePageFlip(fd, CRTC, 0, 0, NULL));
    say("asynchronous", drmModePageFlip(fd, CRTC, fb, DRM_MODE_PAGE_FLIP_ASYNC, NULL));
    say("with a target",
        drmModePageFlipTarget(fd, CRTC, fb, DRM_MODE_PAGE_FLIP_TARGET_RELATIVE, NULL, 1));
    say("unknown flag", drmModePageFlip(fd, CRTC, fb, 0x10, NULL));
    say("reserved field", drmIoctl(fd, DRM_IOCTL_MODE_PAGE_FLIP, &reserved) == 0 ? 0 : -errno);
    say("who isn't master", drmModePageFlip(other, CRTC, fb, 0, NULL));
    say("who isn't master, with an unknown flag", drmModePageFlip(other, CRTC, fb, 0x10, NULL));
    say("flips", drmModePageFlip(fd, CRTC, fb, 0, NULL));
    say("darkens it", drmModeSetCrtc(fd, CRTC, 0, 0, 0, NULL, 0, NULL));
    say("flips a dark CRTC", drmModePageFlip(fd, CRTC, fb, 0, NULL));
}

/* A lessee flips what it has, until that is taken back. */
static void flip_a_lease(void)
{
    const uint32_t objects[] = {OTHER_CRTC, OTHER_CONNECTOR, OTHER_PLANE};
    int fd = open_card(O_NONBLOCK), lessee;
    uint32_t fb, id;

    light(fd, CRTC, CONNECTOR, 10);
    drmSetClientCap(fd, DRM_CLIENT_CAP_UNIVERSAL_PLANES, 1);
    lessee = drmModeCreateLease(fd, objects, 3, O_CLOEXEC, &id);
    fb = light(lessee, OTHER_CRTC, OTHER_CONNECTOR, 10);
    say("lessee flips", drmModePageFlip(lessee, OTHER_CRTC, fb, DRM_MODE_PAGE_FLIP_EVENT, NULL));
    await(lessee);
    printf("of its CRTC: %d\n", told.crtc == OTHER_CRTC);
    say("lessee flips another CRTC", drmModePageFlip(lessee, CRTC, fb, 0, NULL));
    say("revokes", drmModeRevokeLease(fd, id));
    say("lessee flips", drmModePageFlip(lessee, OTHER_CRTC, fb, 0, NULL));
    say("owner flips", drmModePageFlip(fd, OTHER_CRTC, fb, 0, NULL));
}

static int wait_vblank(int fd, unsigned type, unsigned sequence, unsigned long signal,
                       unsigned *reply)
{
    drmVBlank wait = {
        .request = {.type = (drmVBlankSeqType)type, .sequence = sequence, .signal = signal}};
    int failed = drmWaitVBlank(fd, &wait) == 0 ? 0 : -errno;

    *reply = wait.reply.sequence;
    return failed;
}

/* Vertical blanking that is waited for */
static void wait_for_vblanks(void)
{
    int fd = open_card(O_NONBLOCK);
    unsigned first, reply;
    int64_t begun;

    say("a dark CRTC", wait_vblank(fd, DRM_VBLANK_RELATIVE, 1, 0, &reply));
    light(fd, CRTC, CONNECTOR, 100);
    begun = now();
    say("asks", wait_vblank(fd, DRM_VBLANK_RELATIVE, 0, 0, &first));
    say("waits for three", wait_vblank(fd, DRM_VBLANK_RELATIVE, 3, 0, &reply));
    printf("three: %d, in time: %d\n", reply - first >= 3 && reply - first < 100,
           now() - begun >= 200 * (int64_t)MILLISECOND);
    say("waits for a number", wait_vblank(fd, DRM_VBLANK_ABSOLUTE, reply + 2, 0, &first));
    printf("two: %d\n", first - reply >= 2 && first - reply < 100);
    say("waits for one that has passed", wait_vblank(fd, DRM_VBLANK_ABSOLUTE, reply, 0, &first));
    say("waits for the next on a miss",
        wait_vblank(fd, DRM_VBLANK_ABSOLUTE | DRM_VBLANK_NEXTONMISS, first, 0, &reply));
    printf("next: %d\n", reply - first >= 1 && reply - first < 100);
    say("the second CRTC, which is dark",
        wait_vblank(fd, DRM_VBLANK_RELATIVE | DRM_VBLANK_SECONDARY, 1, 0, &reply));
    say("no third CRTC",
        wait_vblank(fd, DRM_VBLANK_RELATIVE | 2 << DRM_VBLANK_HIGH_CRTC_SHIFT, 1, 0, &reply));
    light(fd, OTHER_CRTC, OTHER_CONNECTOR, 50);
    say("the second CRTC",
        wait_vblank(fd, DRM_VBLANK_RELATIVE | 1 << DRM_VBLANK_HIGH_CRTC_SHIFT, 1, 0, &reply));
    say("a signal", wait_vblank(fd, DRM_VBLANK_RELATIVE | DRM_VBLANK_SIGNAL, 1, 0, &reply));
}

/* Events of vertical blanking, and its number */
static void queue_vblanks(void)
{
    int fd = open_card(O_NONBLOCK);
    unsigned reply;
    uint64_t sequence, time, queued;

    say("a dark CRTC's sequence", drmCrtcGetSequence(fd, CRTC, &sequence, &time));
    say("queues on a dark CRTC",
        drmCrtcQueueSequence(fd, CRTC, DRM_CRTC_SEQUENCE_RELATIVE, 1, NULL, 0));
    say("unknown flag on a dark CRTC", drmCrtcQueueSequence(fd, CRTC, 4, 1, NULL, 0));
    light(fd, CRTC, CONNECTOR, 100);
    say("asks for an event",
        wait_vblank(fd, DRM_VBLANK_RELATIVE | DRM_VBLANK_EVENT, 1, 42, &reply));
    await(fd);
    printf("its number %d, data %d\n", told.sequence == reply, told.data == (void *)42);
    say("its sequence", drmCrtcGetSequence(fd, CRTC, &sequence, &time));
    printf("now: %d\n", (int64_t)time <= now() && now() - (int64_t)time < 60 * (int64_t)SECOND);
    say("queues", drmCrtcQueueSequence(fd, CRTC, DRM_CRTC_SEQUENCE_RELATIVE, 2, &queued, 43));
    await(fd);
    printf("its number %d, data %d, time %d\n", told.sequence == queued, told.data == (void *)43,
           told.time <= now());
    say("no CRTC", drmCrtcGetSequence(fd, CONNECTOR, &sequence, &time));
    say("queues on no CRTC", drmCrtcQueueSequence(fd, CONNECTOR, 4, 1, NULL, 0));
}

static int epoll_of(int fd)
{
    struct epoll_event event = {.events = EPOLLIN, .data = {.u64 = 77}};
    int set = epoll_create1(EPOLL_CLOEXEC);

    say("adds", epoll_ctl(set, EPOLL_CTL_ADD, fd, &event));
    return set;
}

/* How many there are to be read, by each function that waits, within so many milliseconds. */
static void wait_by_each(int fd, int set, int milliseconds)
{
    struct timespec time = {milliseconds / 1000, milliseconds % 1000 * MILLISECOND};
    struct timeval other = {milliseconds / 1000, milliseconds % 1000 * 1000};
    struct pollfd many[100];
    struct epoll_event event = {0};
    fd_set reads;
    int at, first;

    for (at = 0; at < 100; at++)
        many[at] = (struct pollfd){at == 99 ? fd : -1, POLLIN, 0};
    first = poll(many, 100, milliseconds);
    printf("poll %d %d, ", first, many[99].revents == POLLIN);
    printf("ppoll %d, ", ppoll(many, 100, &time, NULL));
    FD_ZERO(&reads);
    FD_SET(fd, &reads);
    first = select(fd + 1, &reads, NULL, NULL, &other);
    printf("select %d %d, ", first, FD_ISSET(fd, &reads) != 0);
    FD_SET(fd, &reads);
    first = pselect(fd + 1, &reads, NULL, NULL, &time, NULL);
    printf("pselect %d, ", first);
    first = epoll_wait(set, &event, 1, milliseconds);
    printf("epoll %d %d\n", first, (int)event.data.u64);
}

static void wait_in_each_way(void)
{
    int fd = open_card(O_NONBLOCK), set = epoll_of(fd);
    struct epoll_event event = {.events = EPOLLIN, .data = {.u64 = 78}};
    uint32_t fb = light(fd, CRTC, CONNECTOR, 1000);

    wait_by_each(fd, set, 0);
    say("flips", drmModePageFlip(fd, CRTC, fb, DRM_MODE_PAGE_FLIP_EVENT, NULL));
    wait_by_each(fd, set, 20000);
    drmHandleEvent(fd, &context);
    wait_by_each(fd, set, 0);
    say("flips", drmModePageFlip(fd, CRTC, fb, DRM_MODE_PAGE_FLIP_EVENT, NULL));
    say("changes it", epoll_ctl(set, EPOLL_CTL_MOD, fd, &event));
    wait_by_each(fd, set, 20000);
    say("takes it out", epoll_ctl(set, EPOLL_CTL_DEL, fd, NULL));
    say("takes it out again", epoll_ctl(set, EPOLL_CTL_DEL, fd, NULL));
    wait_by_each(fd, set, 0);
}

static void tell_nobody(int signal)
{
    (void)signal;
}

/* A read returns one event, and one that is too short for it loses the rest. */
static void read_events(void)
{
    int fd = open_card(O_NONBLOCK), waiting = open_card(0), at, failed = 0;
    struct drm_event_crtc_sequence events[200], last = {0};
    const struct itimerval soon = {{0, 0}, {0, 300000}};
    const struct sigaction action = {.sa_handler = tell_nobody};
    uint64_t queued;

    light(fd, CRTC, CONNECTOR, 20);
    say("reads nothing", read(fd, events, sizeof events) < 0 ? -errno : 0);
    for (at = 0; failed == 0; at++)
        failed =
            drmCrtcQueueSequence(fd, CRTC, DRM_CRTC_SEQUENCE_RELATIVE, 2, &queued, (uint64_t)at);
    printf("events %d, then %s\n", at - 1, error_of(failed));
    say("a flip without an event", drmModePageFlip(fd, CRTC, make_fb(fd), 0, NULL));
    /* all are due after a while */
    poll(NULL, 0, 1000);
    printf("31 bytes: %d\n", (int)read(fd, events, 31));
    printf("100 bytes: %d\n", (int)read(fd, events, 100));
    for (at = 0; read(fd, events, sizeof events) == sizeof last; at++)
        last = events[0];
    printf("others: %d, the last %d\n", at, (int)last.user_data);
    say("reads nothing", read(fd, events, sizeof events) < 0 ? -errno : 0);
    say("queues", drmCrtcQueueSequence(waiting, CRTC, DRM_CRTC_SEQUENCE_RELATIVE, 5, &queued, 1));
    printf("waits: %d\n", (int)read(waiting, events, sizeof events));
    sigaction(SIGALRM, &action, NULL);
    setitimer(ITIMER_REAL, &soon, NULL);
    say("waits until a signal", read(waiting, events, sizeof events) < 0 ? -errno : 0);
}

/* Any holder of the file reads its events: a child its parent's, and the parent the child's. */
static void fork_between(void)
{
    int fd = open_card(O_NONBLOCK), status;
    uint32_t fb = light(fd, CRTC, CONNECTOR, 500);
    pid_t child;

    say("flips", drmModePageFlip(fd, CRTC, fb, DRM_MODE_PAGE_FLIP_EVENT, NULL));
    child = fork();
    if (child == 0) {
        uint64_t queued;

        await(fd);
        _exit(told.count != 1 || told.crtc != CRTC
              || drmCrtcQueueSequence(fd, CRTC, DRM_CRTC_SEQUENCE_RELATIVE, 1, &queued, 5) != 0);
    }
    waitpid(child, &status, 0);
    printf("child %d\n", status);
    await(fd);
    printf("events %d, data %d\n", told.count, (int)(uintptr_t)told.data);
}

/* Events go with the descriptor; what waits for a CRTC that goes dark comes at once. */
static void lose_events(void)
{
    int fd = open_card(O_NONBLOCK);
    uint32_t fb = light(fd, CRTC, CONNECTOR, 60000);

    say("flips", drmModePageFlip(fd, CRTC, fb, DRM_MODE_PAGE_FLIP_EVENT, NULL));
    printf("before its time: %d\n", poll(&(struct pollfd){fd, POLLIN, 0}, 1, 0));
    say("darkens it", drmModeSetCrtc(fd, CRTC, 0, 0, 0, NULL, 0, NULL));
    await(fd);
    printf("events %d\n", told.count);
    light(fd, CRTC, CONNECTOR, 100);
    say("flips", drmModePageFlip(fd, CRTC, fb, DRM_MODE_PAGE_FLIP_EVENT, NULL));
    close(fd);
    fd = open_card(O_NONBLOCK);
    printf("of a new descriptor: %d\n", poll(&(struct pollfd){fd, POLLIN, 0}, 1, 300));
}

static void keep_cursors(void)
{
    int fd = open_card(O_NONBLOCK), other = open_card(O_NONBLOCK);
    struct drm_mode_create_dumb dumb = {.width = 64, .height = 64, .bpp = 32};

    drmIoctl(fd, DRM_IOCTL_MODE_CREATE_DUMB, &dumb);
    say("sets", drmModeSetCursor(fd, CRTC, dumb.handle, 64, 64));
    say("sets with a spot", drmModeSetCursor2(fd, CRTC, dumb.handle, 64, 64, 1, 1));
    say("moves", drmModeMoveCursor(fd, CRTC, 10, 10));
    say("hides", drmModeSetCursor(fd, CRTC, 0, 0, 0));
    say("no CRTC", drmModeSetCursor(fd, CONNECTOR, dumb.handle, 64, 64));
    say("no handle", drmModeSetCursor(fd, CRTC, 99, 64, 64));
    say("too large", drmModeSetCursor(fd, CRTC, dumb.handle, 65, 64));
    say("who isn't master", drmModeMoveCursor(other, CRTC, 10, 10));
}

static atomic_bool is_done;

static void *ask_until_done(void *argument)
{
    const int *fd = argument;
    uint64_t value;

    while (!is_done)
        drmGetCap(*fd, DRM_CAP_DUMB_BUFFER, &value);
    return NULL;
}

/* Who waits doesn't wake for what another thread is answered. */
static void wait_beside_a_thread(void)
{
    int fd = open_card(O_NONBLOCK), at, woken = 0;
    pthread_t thread;

    pthread_create(&thread, NULL, ask_until_done, &fd);
    for (at = 0; at < 20; at++)
        woken += poll(&(struct pollfd){fd, POLLIN, 0}, 1, 50) != 0;
    is_done = true;
    pthread_join(thread, NULL);
    printf("woken %d\n", woken);
}

/* The mode that was set is told. */
static void tell_modes(void)
{
    int fd = open_card(O_NONBLOCK);
    drmModeCrtc *dark = drmModeGetCrtc(fd, CRTC), *lit;

    light(fd, CRTC, CONNECTOR, 25);
    lit = drmModeGetCrtc(fd, CRTC);
    printf("dark: mode %d; lit: mode %d, %s\n", dark->mode_valid, lit->mode_valid, lit->mode.name);
}

/* So many frames, each with a cursor that moves, in a mode of 500 Hz */
static void keep_on(int frames)
{
    int fd = open_card(O_NONBLOCK), at, failed = 0;
    uint32_t fbs[] = {light(fd, CRTC, CONNECTOR, 2), make_fb(fd)};

    for (at = 0; at < frames; at++) {
        failed += drmModePageFlip(fd, CRTC, fbs[at % 2], DRM_MODE_PAGE_FLIP_EVENT, NULL) != 0;
        failed += drmModeMoveCursor(fd, CRTC, at, at) != 0;
        await(fd);
    }
    printf("frames %d, failed %d\n", told.count, failed);
}

static void drop_in_a_child(int fd)
{
    pid_t child = fork();

    if (child == 0)
        _exit(drmDropMaster(fd) != 0);
    waitpid(child, NULL, 0);
}

/* What is known of the caller: any program's request can end it. */
static void drop_master(void)
{
    int fd = open_card(O_NONBLOCK);
    uint32_t fb = light(fd, CRTC, CONNECTOR, 2);

    say("moves", drmModeMoveCursor(fd, CRTC, 1, 1));
    say("drops", drmDropMaster(fd));
    say("moves", drmModeMoveCursor(fd, CRTC, 1, 1));
    say("sets", drmSetMaster(fd));
    say("moves", drmModeMoveCursor(fd, CRTC, 1, 1));
    drop_in_a_child(fd);
    say("moves", drmModeMoveCursor(fd, CRTC, 1, 1));
    say("flips", drmModePageFlip(fd, CRTC, fb, 0, NULL));
    say("moves", drmModeMoveCursor(fd, CRTC, 1, 1));
}

/* A framebuffer that is removed, or whose CRTC is set by another descriptor, is not flipped blindly
 */
static void darken(void)
{
    int fd = open_card(O_NONBLOCK);
    uint32_t fb = light(fd, CRTC, CONNECTOR, 2), other = make_fb(fd);

    say("flips", drmModePageFlip(fd, CRTC, fb, DRM_MODE_PAGE_FLIP_EVENT, NULL));
    await(fd);
    say("removes what is shown", drmModeRmFB(fd, fb));
    say("flips a dark CRTC", drmModePageFlip(fd, CRTC, other, 0, NULL));
}

/* Modes without a framebuffer */
static void set_no_framebuffer(void)
{
    int fd = open_card(O_NONBLOCK), other = open_card(O_NONBLOCK);
    drmModeModeInfo mode = mode_of(10);
    uint32_t ids[] = {CONNECTOR, OTHER_CONNECTOR};

    light(fd, CRTC, CONNECTOR, 10);
    say("a mode and no framebuffer", drmModeSetCrtc(fd, CRTC, 0, 0, 0, ids, 1, &mode));
    say("with two connectors", drmModeSetCrtc(fd, CRTC, 0, 0, 0, ids, 2, &mode));
    say("no CRTC", drmModeSetCrtc(fd, CONNECTOR, 0, 0, 0, ids, 1, &mode));
    say("who isn't master", drmModeSetCrtc(other, CRTC, 0, 0, 0, ids, 1, &mode));
    say("neither, with a connector", drmModeSetCrtc(fd, CRTC, 0, 0, 0, ids, 1, NULL));
    say("neither", drmModeSetCrtc(fd, CRTC, 0, 0, 0, NULL, 0, NULL));
}

static const struct {
    const char *name;
    void (*tried)(void);
} all[] = {
    {"dropped", drop_master},      {"darkened", darken},       {"unframed", set_no_framebuffer},
    {"early", flip_too_early},     {"refusals", refuse_flips}, {"lease", flip_a_lease},
    {"vblanks", wait_for_vblanks}, {"queues", queue_vblanks},  {"waits", wait_in_each_way},
    {"reads", read_events},        {"fork", fork_between},     {"ends", lose_events},
    {"cursors", keep_cursors},     {"modes", tell_modes},      {"beside", wait_beside_a_thread},
    {"views", set_outside},        {"sizes", flip_outside},
};

int main(int count, char **words)
{
    const char *what = count > 1 ? words[1] : "";
    size_t at;

    if (strcmp(what, "frames") == 0)
        show_frames(60);
    if (strcmp(what, "steady") == 0)
        keep_on(atoi(words[2]));
    for (at = 0; at < sizeof all / sizeof all[0]; at++) {
        if (strcmp(what, all[at].name) == 0)
            all[at].tried();
    }
    return 0;
}
