/* For tests: cursors and gamma tables of one process that another one sees. The argument is a case,
 * which prints what it finds. Each CRTC of the device has a cursor plane. */
#define _GNU_SOURCE
#include <errno.h>
#include <fcntl.h>
#include <stdbool.h>
#include <stdint.h>
#include <stdio.h>
#include <stdlib.h>
#include <string.h>
#include <sys/wait.h>
#include <unistd.h>

#include <xf86drm.h>
#include <xf86drmMode.h>

#define CRTC 1
#define OTHER_CRTC 2
#define OTHER_PRIMARY 4
#define CURSOR_PLANE 6
#define OTHER_CONNECTOR 11
#define ENTRIES 256

static int opened(void)
{
    int fd = open("/dev/dri/card0", O_RDWR | O_CLOEXEC);

    if (fd < 0) {
        printf("no card: %s\n", strerror(errno));
        exit(2);
    }
    return fd;
}

static const char *said(int result)
{
    return result == 0 ? "done" : strerrorname_np(errno);
}

static void tell(const char *what, int result)
{
    printf("%s: %s\n", what, said(result));
}

static uint64_t value_of(int fd, uint32_t object, const char *name)
{
    drmModeObjectProperties *all = drmModeObjectGetProperties(fd, object, DRM_MODE_OBJECT_ANY);
    uint64_t found = UINT64_MAX;
    uint32_t at;

    for (at = 0; all != NULL && at < all->count_props; at++) {
        drmModePropertyRes *each = drmModeGetProperty(fd, all->props[at]);

        if (each != NULL && strcmp(each->name, name) == 0)
            found = all->prop_values[at];
        drmModeFreeProperty(each);
    }
    drmModeFreeObjectProperties(all);
    return found;
}

static uint32_t id_of(int fd, uint32_t object, const char *name)
{
    drmModeObjectProperties *all = drmModeObjectGetProperties(fd, object, DRM_MODE_OBJECT_ANY);
    uint32_t found = 0, at;

    for (at = 0; all != NULL && at < all->count_props; at++) {
        drmModePropertyRes *each = drmModeGetProperty(fd, all->props[at]);

        if (each != NULL && strcmp(each->name, name) == 0)
            found = all->props[at];
        drmModeFreeProperty(each);
    }
    drmModeFreeObjectProperties(all);
    return found;
}

/* What another process sees of the cursor. */
static void look_at_cursor(void)
{
    int fd = opened();
    drmModePlane *plane;
    drmModeFB2 *fb;

    drmSetClientCap(fd, DRM_CLIENT_CAP_ATOMIC, 1);
    plane = drmModeGetPlane(fd, CURSOR_PLANE);
    fb = plane->fb_id != 0 ? drmModeGetFB2(fd, plane->fb_id) : NULL;
    printf("type %d, on CRTC %u, same framebuffer %d, at %d,%d, %d by %d",
           (int)value_of(fd, CURSOR_PLANE, "type"), plane->crtc_id,
           value_of(fd, CURSOR_PLANE, "FB_ID") == plane->fb_id,
           (int)value_of(fd, CURSOR_PLANE, "CRTC_X"), (int)value_of(fd, CURSOR_PLANE, "CRTC_Y"),
           (int)value_of(fd, CURSOR_PLANE, "CRTC_W"), (int)value_of(fd, CURSOR_PLANE, "CRTC_H"));
    if (fb != NULL)
        printf(", %.4s %u by %u", (const char *)&fb->pixel_format, fb->width, fb->height);
    printf("\n");
}

/* Runs a look in another process. */
static void another(void (*look)(void))
{
    pid_t child;

    fflush(stdout);
    child = fork();
    if (child == 0) {
        look();
        fflush(stdout);
        _exit(0);
    }
    waitpid(child, NULL, 0);
}

static uint32_t buffer(int fd, uint32_t side)
{
    struct drm_mode_create_dumb dumb = {.width = side, .height = side, .bpp = 32};

    drmIoctl(fd, DRM_IOCTL_MODE_CREATE_DUMB, &dumb);
    return dumb.handle;
}

static int count_of_framebuffers(int fd)
{
    drmModeRes *all = drmModeGetResources(fd);
    int count = all->count_fbs;

    drmModeFreeResources(all);
    return count;
}

/* By a program that lists overlay planes only. */
static void cursors(void)
{
    int fd = opened();
    uint32_t handle = buffer(fd, 64);
    drmModePlaneRes *planes;

    tell("sets", drmModeSetCursor2(fd, CRTC, handle, 64, 64, 3, 4));
    tell("moves", drmModeMoveCursor(fd, CRTC, 5, -3));
    another(look_at_cursor);
    planes = drmModeGetPlaneResources(fd);
    printf("lists %u planes, %d framebuffers\n", planes->count_planes, count_of_framebuffers(fd));
    tell("sets a larger one", drmModeSetCursor(fd, CRTC, buffer(fd, 128), 128, 128));
    another(look_at_cursor);
    tell("larger than its buffer", drmModeSetCursor(fd, CRTC, handle, 65, 65));
    tell("overflows", drmModeMoveCursor(fd, CRTC, INT32_MAX, 0));
    tell("no handle", drmModeSetCursor(fd, CRTC, 99, 64, 64));
    another(look_at_cursor);
    tell("hides", drmModeSetCursor(fd, CRTC, 0, 0, 0));
    another(look_at_cursor);
    tell("moves what is hidden", drmModeMoveCursor(fd, CRTC, 7, 8));
    tell("sets", drmModeSetCursor(fd, CRTC, handle, 64, 64));
    another(look_at_cursor);
    close(fd);
    another(look_at_cursor);
}

/* A lessee without the cursor's plane. */
static void leased_cursor(void)
{
    static const uint32_t without[] = {OTHER_CRTC, OTHER_PRIMARY, OTHER_CONNECTOR};
    static const uint32_t with[] = {CRTC, 3, CURSOR_PLANE, 10};
    int fd = opened(), lessee, other;
    uint32_t id;

    drmSetClientCap(fd, DRM_CLIENT_CAP_UNIVERSAL_PLANES, 1);
    tell("owner", drmModeMoveCursor(fd, OTHER_CRTC, 1, 1));
    tell("owner", drmModeMoveCursor(fd, CRTC, 1, 1));
    lessee = drmModeCreateLease(fd, without, 3, O_CLOEXEC, &id);
    other = drmModeCreateLease(fd, with, 4, O_CLOEXEC, &id);
    tell("lessee without its plane", drmModeMoveCursor(lessee, OTHER_CRTC, 1, 1));
    tell("lessee", drmModeSetCursor(other, CRTC, buffer(other, 64), 64, 64));
    another(look_at_cursor);
}

static uint16_t red[ENTRIES], green[ENTRIES], blue[ENTRIES];

static void fill(uint16_t first)
{
    int at;

    for (at = 0; at < ENTRIES; at++) {
        red[at] = (uint16_t)(first + at);
        green[at] = (uint16_t)(first + 2 * at);
        blue[at] = (uint16_t)(first + 3 * at);
    }
}

static void tell_gamma(int fd, uint32_t crtc)
{
    memset(red, 0xff, sizeof red);
    memset(blue, 0xff, sizeof blue);
    tell("gets", drmModeCrtcGetGamma(fd, crtc, ENTRIES, red, green, blue));
    printf("entries %u %u %u, last %u\n", red[0], red[1], blue[1], blue[255]);
}

static void look_at_gamma(void)
{
    int fd = opened();
    drmModePropertyBlobRes *blob =
        drmModeGetPropertyBlob(fd, (uint32_t)value_of(fd, CRTC, "GAMMA_LUT"));
    const struct drm_color_lut *entries = blob == NULL ? NULL : blob->data;

    tell_gamma(fd, CRTC);
    printf("entries of a table %d, of the property %d\n", drmModeGetCrtc(fd, CRTC)->gamma_size,
           (int)value_of(fd, CRTC, "GAMMA_LUT_SIZE"));
    if (entries != NULL)
        printf("blob of %u bytes, second entry %u %u %u\n", blob->length, entries[1].red,
               entries[1].green, entries[1].blue);
    else
        printf("no blob\n");
}

static int commit(int fd, uint32_t flags, uint64_t value)
{
    drmModeAtomicReq *request = drmModeAtomicAlloc();

    drmModeAtomicAddProperty(request, CRTC, id_of(fd, CRTC, "GAMMA_LUT"), value);
    return drmModeAtomicCommit(fd, request, flags, NULL);
}

static void gammas(void)
{
    int fd = opened();
    struct drm_color_lut entries[ENTRIES] = {{0}};
    uint32_t blob, other;

    another(look_at_gamma);
    fill(100);
    tell("sets", drmModeCrtcSetGamma(fd, CRTC, ENTRIES, red, green, blue));
    another(look_at_gamma);
    tell_gamma(fd, OTHER_CRTC);
    tell("another size", drmModeCrtcSetGamma(fd, CRTC, 16, red, green, blue));
    tell("wrong address", drmModeCrtcSetGamma(fd, CRTC, ENTRIES, red, NULL, blue));
    drmSetClientCap(fd, DRM_CLIENT_CAP_ATOMIC, 1);
    entries[1].red = 9;
    drmModeCreatePropertyBlob(fd, entries, sizeof entries, &blob);
    drmModeCreatePropertyBlob(fd, entries, 12, &other);
    tell("tests", commit(fd, DRM_MODE_ATOMIC_TEST_ONLY, blob));
    tell("half an entry", commit(fd, 0, other));
    tell("no blob", commit(fd, 0, 999));
    another(look_at_gamma);
    tell("commits", commit(fd, 0, blob));
    drmModeDestroyPropertyBlob(fd, blob);
    another(look_at_gamma);
    tell("sets the property",
         drmModeObjectSetProperty(fd, CRTC, DRM_MODE_OBJECT_CRTC, id_of(fd, CRTC, "GAMMA_LUT"), 0));
    another(look_at_gamma);
}

int main(int count, char **words)
{
    static const struct {
        const char *name;
        void (*run)(void);
    } cases[] = {{"cursors", cursors}, {"leased", leased_cursor}, {"gammas", gammas}};
    size_t at;

    for (at = 0; count == 2 && at < sizeof cases / sizeof cases[0]; at++) {
        if (strcmp(words[1], cases[at].name) == 0) {
            cases[at].run();
            fflush(stdout);
            return 0;
        }
    }
    return 2;
}
