/* For tests: what programs of atomic commits share. The device has a primary plane for each of two
 * CRTCs and an overlay plane for both.
 */
#ifndef ZIRKOSHE_TESTS_LIBDRM_ATOMIC_H
#define ZIRKOSHE_TESTS_LIBDRM_ATOMIC_H

#include <errno.h>
#include <fcntl.h>
#include <stdbool.h>
#include <stdint.h>
#include <stdio.h>
#include <stdlib.h>
#include <string.h>
#include <unistd.h>
#include <xf86drm.h>
#include <xf86drmMode.h>

#define CARD "/dev/dri/card0"

/* The mode objects of the topology */
enum {
    CRTC = 1,
    OTHER_CRTC = 2,
    PRIMARY = 3,
    OTHER_PRIMARY = 4,
    OVERLAY = 5,
    ENCODER = 6,
    CONNECTOR = 8,
    OTHER_CONNECTOR = 9
};

enum { MODESET = DRM_MODE_ATOMIC_ALLOW_MODESET, EVENT = DRM_MODE_PAGE_FLIP_EVENT };

static inline int open_card(bool is_atomic)
{
    int fd = open(CARD, O_RDWR | O_CLOEXEC | O_NONBLOCK);

    if (fd < 0 || (is_atomic && drmSetClientCap(fd, DRM_CLIENT_CAP_ATOMIC, 1) != 0)) {
        perror(CARD);
        exit(2);
    }
    return fd;
}

static inline uint32_t make_fb(int fd, uint32_t side)
{
    struct drm_mode_create_dumb dumb = {.width = side, .height = side, .bpp = 32};
    uint32_t id = 0;

    if (drmIoctl(fd, DRM_IOCTL_MODE_CREATE_DUMB, &dumb) != 0
        || drmModeAddFB(fd, side, side, 24, 32, dumb.pitch, dumb.handle, &id) != 0)
        exit(2);
    return id;
}

/* Returns a mode in which a frame takes this time, of at least 1. */
static inline drmModeModeInfo mode_of(int milliseconds)
{
    return (drmModeModeInfo){.clock = 60000000 / (uint32_t)milliseconds,
                             .hdisplay = 64,
                             .hsync_start = 64,
                             .hsync_end = 64,
                             .htotal = 60000,
                             .vdisplay = 64,
                             .vsync_start = 64,
                             .vsync_end = 64,
                             .vtotal = 1000};
}

static inline uint32_t mode_blob(int fd, int milliseconds)
{
    drmModeModeInfo mode = mode_of(milliseconds);
    uint32_t id = 0;

    if (drmModeCreatePropertyBlob(fd, &mode, sizeof mode, &id) != 0)
        exit(2);
    return id;
}

static inline const char *error_of(int failed)
{
    return failed == 0 ? "done" : strerrorname_np(failed == -1 ? errno : -failed);
}

static inline void say(const char *what, int failed)
{
    printf("%s: %s\n", what, error_of(failed));
}

/* The id of a property by its name, or 0, and its value. */
static inline uint32_t property(int fd, uint32_t object, const char *name, uint64_t *value)
{
    drmModeObjectProperties *listed = drmModeObjectGetProperties(fd, object, DRM_MODE_OBJECT_ANY);
    uint32_t at, id = 0;

    for (at = 0; listed != NULL && at < listed->count_props; at++) {
        drmModePropertyRes *each = drmModeGetProperty(fd, listed->props[at]);

        if (each != NULL && strcmp(each->name, name) == 0) {
            id = each->prop_id;
            *value = listed->prop_values[at];
        }
        drmModeFreeProperty(each);
    }
    drmModeFreeObjectProperties(listed);
    return id;
}

static inline uint64_t value_of(int fd, uint32_t object, const char *name)
{
    uint64_t value = 0;

    return property(fd, object, name, &value) != 0 ? value : UINT64_MAX;
}

/* A property of an object, and the value that it is set to; a name that no property has is 999. */
struct set {
    uint32_t object;
    const char *name;
    uint64_t value;
};

static inline int commit(int fd, uint32_t flags, const struct set *sets, size_t count, void *data)
{
    drmModeAtomicReq *request = drmModeAtomicAlloc();
    int named = open_card(true), failed;
    size_t at;

    for (at = 0; at < count; at++) {
        uint64_t value;
        uint32_t id = property(named, sets[at].object, sets[at].name, &value);

        drmModeAtomicAddProperty(request, sets[at].object, id != 0 ? id : 999, sets[at].value);
    }
    close(named);
    failed = drmModeAtomicCommit(fd, request, flags, data);
    drmModeAtomicFree(request);
    return failed;
}

#define COMMIT(fd, flags, ...)                                                                     \
    commit(fd, flags, (const struct set[]){__VA_ARGS__},                                           \
           sizeof((const struct set[]){__VA_ARGS__}) / sizeof(struct set), NULL)

/* A plane that shows the whole of a framebuffer of 64 by 64 pixels */
#define SHOWS(plane, crtc, fb)                                                                     \
    {plane, "FB_ID", fb}, {plane, "CRTC_ID", crtc}, {plane, "SRC_X", 0}, {plane, "SRC_Y", 0},      \
        {plane, "SRC_W", 64 << 16}, {plane, "SRC_H", 64 << 16}, {plane, "CRTC_X", 0},              \
        {plane, "CRTC_Y", 0}, {plane, "CRTC_W", 64},                                               \
    {                                                                                              \
        plane, "CRTC_H", 64                                                                        \
    }
#define LIGHTS(crtc, connector, plane, mode, fb)                                                   \
    {crtc, "ACTIVE", 1}, {crtc, "MODE_ID", mode}, {connector, "CRTC_ID", crtc},                    \
        SHOWS(plane, crtc, fb)

#endif
