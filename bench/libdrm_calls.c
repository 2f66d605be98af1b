/* Makes calls through libdrm, and prints a line for each kind with the times of all of them in
 * nanoseconds. The device has a CRTC with three planes.
 */
#define _GNU_SOURCE
#include <fcntl.h>
#include <poll.h>
#include <stdbool.h>
#include <stdio.h>
#include <stdlib.h>
#include <string.h>
#include <sys/wait.h>
#include <time.h>
#include <unistd.h>
#include <xf86drm.h>
#include <xf86drmMode.h>

#define CARD "/dev/dri/card0"
#define SECOND 1000000000
#define SIDE 64
#define MOST_TIMES 100000
#define PROCESSES 4

enum { PLANES = 3, FRAMEBUFFERS = 2 };

/* The objects of the device, and two framebuffers for each plane */
struct device {
    int fd;
    uint32_t crtc, connector, planes[PLANES], framebuffers[PLANES][FRAMEBUFFERS];
};

static int64_t taken[MOST_TIMES];
static int times = 2000;

static int64_t now(void)
{
    struct timespec time;

    clock_gettime(CLOCK_MONOTONIC, &time);
    return (int64_t)time.tv_sec * SECOND + time.tv_nsec;
}

static void expect(bool holds, const char *what)
{
    if (holds)
        return;
    perror(what);
    exit(1);
}

static void print_times(const char *kind)
{
    int at;

    printf("%s:", kind);
    for (at = 0; at < times; at++)
        printf(" %lld", (long long)taken[at]);
    printf("\n");
    fflush(stdout);
}

static uint32_t make_framebuffer(int fd)
{
    struct drm_mode_create_dumb dumb = {.width = SIDE, .height = SIDE, .bpp = 32};
    uint32_t id = 0;

    expect(drmIoctl(fd, DRM_IOCTL_MODE_CREATE_DUMB, &dumb) == 0, "CREATE_DUMB");
    expect(drmModeAddFB(fd, SIDE, SIDE, 24, 32, dumb.pitch, dumb.handle, &id) == 0, "ADDFB");
    return id;
}

/* A mode in which a frame takes a millisecond. */
static drmModeModeInfo mode_of_device(void)
{
    return (drmModeModeInfo){.clock = 60000,
                             .hdisplay = SIDE,
                             .hsync_start = SIDE,
                             .hsync_end = SIDE,
                             .htotal = 600,
                             .vdisplay = SIDE,
                             .vsync_start = SIDE,
                             .vsync_end = SIDE,
                             .vtotal = 100};
}

static struct device open_device(void)
{
    struct device device = {.fd = open(CARD, O_RDWR | O_CLOEXEC)};
    drmModePlaneRes *planes;
    drmModeRes *resources;
    int plane;

    expect(device.fd >= 0, CARD);
    expect(drmSetClientCap(device.fd, DRM_CLIENT_CAP_ATOMIC, 1) == 0, "SET_CLIENT_CAP");
    resources = drmModeGetResources(device.fd);
    planes = drmModeGetPlaneResources(device.fd);
    expect(resources != NULL && planes != NULL && planes->count_planes >= PLANES, "GETRESOURCES");
    device.crtc = resources->crtcs[0];
    device.connector = resources->connectors[0];
    for (plane = 0; plane < PLANES; plane++)
        device.planes[plane] = planes->planes[plane];
    drmModeFreePlaneResources(planes);
    drmModeFreeResources(resources);
    return device;
}

static void make_framebuffers(struct device *device)
{
    int plane, at;

    for (plane = 0; plane < PLANES; plane++) {
        for (at = 0; at < FRAMEBUFFERS; at++)
            device->framebuffers[plane][at] = make_framebuffer(device->fd);
    }
}

static uint32_t find_property(int fd, uint32_t object, const char *name)
{
    drmModeObjectProperties *listed = drmModeObjectGetProperties(fd, object, DRM_MODE_OBJECT_ANY);
    uint32_t at, id = 0;

    for (at = 0; listed != NULL && at < listed->count_props; at++) {
        drmModePropertyRes *each = drmModeGetProperty(fd, listed->props[at]);

        if (each != NULL && strcmp(each->name, name) == 0)
            id = each->prop_id;
        drmModeFreeProperty(each);
    }
    drmModeFreeObjectProperties(listed);
    expect(id != 0, name);
    return id;
}

static void add(drmModeAtomicReq *request, int fd, uint32_t object, const char *name,
                uint64_t value)
{
    drmModeAtomicAddProperty(request, object, find_property(fd, object, name), value);
}

/* A commit in which each plane shows the framebuffer at this position. */
static drmModeAtomicReq *frame_of(const struct device *device, int at)
{
    drmModeAtomicReq *request = drmModeAtomicAlloc();
    int plane;

    for (plane = 0; plane < PLANES; plane++) {
        uint32_t id = device->planes[plane];

        add(request, device->fd, id, "FB_ID", device->framebuffers[plane][at]);
        add(request, device->fd, id, "CRTC_ID", device->crtc);
        add(request, device->fd, id, "SRC_W", SIDE << 16);
        add(request, device->fd, id, "SRC_H", SIDE << 16);
        add(request, device->fd, id, "CRTC_W", SIDE);
        add(request, device->fd, id, "CRTC_H", SIDE);
    }
    return request;
}

static void light(const struct device *device)
{
    drmModeAtomicReq *request = frame_of(device, 0);
    drmModeModeInfo mode = mode_of_device();
    uint32_t mode_id;

    expect(drmModeCreatePropertyBlob(device->fd, &mode, sizeof mode, &mode_id) == 0,
           "CREATEPROPBLOB");
    add(request, device->fd, device->connector, "CRTC_ID", device->crtc);
    add(request, device->fd, device->crtc, "MODE_ID", mode_id);
    add(request, device->fd, device->crtc, "ACTIVE", 1);
    expect(drmModeAtomicCommit(device->fd, request, DRM_MODE_ATOMIC_ALLOW_MODESET, NULL) == 0,
           "the first commit");
    drmModeAtomicFree(request);
}

/* Reads the event of the last flip. */
static void await_event(int fd)
{
    char event[64];

    expect(read(fd, event, sizeof event) > 0, "read");
}

static void measure_commits(const struct device *device, const char *kind, uint32_t flags)
{
    drmModeAtomicReq *frames[FRAMEBUFFERS] = {frame_of(device, 0), frame_of(device, 1)};
    int at;

    for (at = 0; at < times; at++) {
        int64_t begun = now();
        int failed = drmModeAtomicCommit(device->fd, frames[(at + 1) % FRAMEBUFFERS], flags, NULL);

        taken[at] = now() - begun;
        expect(failed == 0, kind);
        if (flags & DRM_MODE_PAGE_FLIP_EVENT)
            await_event(device->fd);
    }
    print_times(kind);
    drmModeAtomicFree(frames[0]);
    drmModeAtomicFree(frames[1]);
}

static void measure_flips(const struct device *device)
{
    int at;

    for (at = 0; at < times; at++) {
        uint32_t framebuffer = device->framebuffers[0][(at + 1) % FRAMEBUFFERS];
        int64_t begun = now();
        int failed =
            drmModePageFlip(device->fd, device->crtc, framebuffer, DRM_MODE_PAGE_FLIP_EVENT, NULL);

        taken[at] = now() - begun;
        expect(failed == 0, "flip");
        await_event(device->fd);
    }
    print_times("page flip");
}

static void ask_crtc(const struct device *device)
{
    int at;

    for (at = 0; at < times; at++) {
        int64_t begun = now();
        drmModeCrtc *crtc = drmModeGetCrtc(device->fd, device->crtc);

        taken[at] = now() - begun;
        expect(crtc != NULL, "GETCRTC");
        drmModeFreeCrtc(crtc);
    }
}

/* A process of those that ask at once has its own file. */
static void ask_at_once(int ready, int begin)
{
    struct device device = open_device();
    char byte = 0;

    expect(write(ready, &byte, 1) == 1 && read(begin, &byte, 1) == 0, "the other process");
    ask_crtc(&device);
    expect(write(ready, &byte, 1) == 1, "the other process");
    _exit(0);
}

/* Several processes ask at once. The time is that of all of them together, for each call of one. */
static void measure_processes(void)
{
    int ready[2], begin[2], at, status;
    int64_t begun;
    char byte;

    expect(pipe(ready) == 0 && pipe(begin) == 0, "pipe");
    for (at = 0; at < PROCESSES; at++) {
        if (fork() == 0) {
            close(begin[1]);
            ask_at_once(ready[1], begin[0]);
        }
    }
    for (at = 0; at < PROCESSES; at++)
        expect(read(ready[0], &byte, 1) == 1, "the other process");
    begun = now();
    close(begin[1]);
    for (at = 0; at < PROCESSES; at++)
        expect(read(ready[0], &byte, 1) == 1, "the other process");
    begun = now() - begun;
    for (at = 0; at < PROCESSES; at++)
        expect(wait(&status) > 0 && status == 0, "the other process");
    for (at = 0; at < times; at++)
        taken[at] = begun / times;
    print_times("GETCRTC of four");
}

/* The argument is how often each call is made. */
int main(int words, char **word)
{
    struct device device;

    times = words > 1 ? atoi(word[1]) : times;
    expect(times >= 1 && times <= MOST_TIMES, "the argument");
    measure_processes();
    device = open_device();
    make_framebuffers(&device);
    light(&device);
    ask_crtc(&device);
    print_times("GETCRTC");
    measure_commits(&device, "commit of three planes",
                    DRM_MODE_ATOMIC_NONBLOCK | DRM_MODE_PAGE_FLIP_EVENT);
    measure_commits(&device, "test-only commit of three planes", DRM_MODE_ATOMIC_TEST_ONLY);
    measure_flips(&device);
    return 0;
}
