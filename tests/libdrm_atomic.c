/* For tests: atomic commits, through libdrm alone. The first argument says what is tried; a line is
 * written for each thing that was found, and the tests know what it must be.
 */
#define _GNU_SOURCE
#include "libdrm_atomic.h"

#include <drm_fourcc.h>
#include <poll.h>
#include <sys/wait.h>
#include <time.h>

#define SECOND 1000000000
#define MILLISECOND 1000000

/* How long a frame takes where calls are tried within one, and the exit status if they were not. */
enum { SLOW_FRAME = 500, TOO_SLOW = 75 };

/* What the server reports, and what the properties have. */
static void say_what_is_shown(int fd)
{
    drmModeCrtc *first = drmModeGetCrtc(fd, CRTC), *second = drmModeGetCrtc(fd, OTHER_CRTC);
    drmModePlane *plane = drmModeGetPlane(fd, OVERLAY);

    printf("CRTCs show %u %u, overlay shows %u\n", first->buffer_id, second->buffer_id,
           plane->fb_id);
    drmModeFreeCrtc(first);
    drmModeFreeCrtc(second);
    drmModeFreePlane(plane);
}

/* What drmHandleEvent reported last */
static struct {
    int count;
    unsigned crtc, sequence;
    int64_t time;
    void *data;
} told;

static void tell(int fd, unsigned sequence, unsigned seconds, unsigned microseconds, unsigned crtc,
                 void *data)
{
    (void)fd;
    told.count++;
    told.crtc = crtc;
    told.sequence = sequence;
    told.time = (int64_t)seconds * SECOND + (int64_t)microseconds * 1000;
    told.data = data;
}

static void await(int fd)
{
    drmEventContext context = {.version = 3, .page_flip_handler2 = tell};
    struct pollfd waited = {fd, POLLIN, 0};

    if (poll(&waited, 1, 20000) != 1) {
        puts("nothing came");
        exit(1);
    }
    drmHandleEvent(fd, &context);
}

static int64_t now(void)
{
    struct timespec time;

    clock_gettime(CLOCK_MONOTONIC, &time);
    return (int64_t)time.tv_sec * SECOND + time.tv_nsec;
}

/* Ends the program if a slow frame that began then may be over, as on a busy machine. The test
 * runs it again.
 */
static void stay_in_frame(int64_t begun)
{
    if (now() - begun > (SLOW_FRAME - 100) * (int64_t)MILLISECOND)
        exit(TOO_SLOW);
}

/* The properties of an object, each with its kind */
static void list_properties(int fd, const char *what, uint32_t object)
{
    drmModeObjectProperties *listed = drmModeObjectGetProperties(fd, object, DRM_MODE_OBJECT_ANY);
    uint32_t at, value;

    printf("%s:", what);
    for (at = 0; at < listed->count_props; at++) {
        drmModePropertyRes *each = drmModeGetProperty(fd, listed->props[at]);
        uint32_t extended = each->flags & DRM_MODE_PROP_EXTENDED_TYPE;

        printf(" %s%s", each->name, each->flags & DRM_MODE_PROP_IMMUTABLE ? "!" : "");
        if (each->flags & DRM_MODE_PROP_ENUM)
            printf("(%d names)", each->count_enums);
        else if (each->flags & DRM_MODE_PROP_BLOB)
            printf("(blob)");
        else if (extended == DRM_MODE_PROP_OBJECT)
            printf("(object %x)", (unsigned)each->values[0]);
        for (value = 0; extended != DRM_MODE_PROP_OBJECT && !(each->flags & DRM_MODE_PROP_ENUM)
                        && value < (uint32_t)each->count_values;
             value++)
            printf("%c%lld", value == 0 ? '(' : '-', (long long)each->values[value]);
        if (extended == DRM_MODE_PROP_SIGNED_RANGE || each->flags & DRM_MODE_PROP_RANGE)
            printf(")");
        drmModeFreeProperty(each);
    }
    puts("");
    drmModeFreeObjectProperties(listed);
}

static void describe(void)
{
    int fd = open_card(false);

    drmSetClientCap(fd, DRM_CLIENT_CAP_UNIVERSAL_PLANES, 1);
    list_properties(fd, "plane", OVERLAY);
    list_properties(fd, "CRTC", CRTC);
    list_properties(fd, "connector", CONNECTOR);
    say("atomic", drmSetClientCap(fd, DRM_CLIENT_CAP_ATOMIC, 1));
    list_properties(fd, "plane", OVERLAY);
    list_properties(fd, "CRTC", CRTC);
    list_properties(fd, "connector", CONNECTOR);
    printf("types %d %d %d\n", (int)value_of(fd, PRIMARY, "type"),
           (int)value_of(fd, OTHER_PRIMARY, "type"), (int)value_of(fd, OVERLAY, "type"));
    say("writeback connectors", drmSetClientCap(fd, DRM_CLIENT_CAP_WRITEBACK_CONNECTORS, 1));
    say("a value of 3", drmSetClientCap(fd, DRM_CLIENT_CAP_ATOMIC, 3));
    say("off", drmSetClientCap(fd, DRM_CLIENT_CAP_ATOMIC, 0));
    list_properties(fd, "CRTC", CRTC);
    say("writeback connectors", drmSetClientCap(fd, DRM_CLIENT_CAP_WRITEBACK_CONNECTORS, 1));
}

/* Lights a CRTC, shows other framebuffers on its planes, and darkens it. */
static void show(void)
{
    int fd = open_card(true);
    uint32_t fbs[] = {make_fb(fd, 64), make_fb(fd, 64), make_fb(fd, 64)}, mode = mode_blob(fd, 10);

    say_what_is_shown(fd);
    say("lights", COMMIT(fd, MODESET, LIGHTS(CRTC, CONNECTOR, PRIMARY, mode, fbs[0])));
    say_what_is_shown(fd);
    say("flips", COMMIT(fd, 0, {PRIMARY, "FB_ID", fbs[1]}));
    say_what_is_shown(fd);
    say("shows an overlay", COMMIT(fd, 0, SHOWS(OVERLAY, CRTC, fbs[2])));
    say_what_is_shown(fd);
    printf("plane %d of CRTC %d from %d, %d on; CRTC active %d, mode %d; connector of CRTC %d\n",
           (int)value_of(fd, OVERLAY, "FB_ID"), (int)value_of(fd, OVERLAY, "CRTC_ID"),
           (int)value_of(fd, OVERLAY, "CRTC_X"), (int)value_of(fd, OVERLAY, "SRC_W") >> 16,
           (int)value_of(fd, CRTC, "ACTIVE"), value_of(fd, CRTC, "MODE_ID") == mode,
           (int)value_of(fd, CONNECTOR, "CRTC_ID"));
    say("moves it", COMMIT(fd, 0, {OVERLAY, "CRTC_X", (uint64_t)-5}));
    printf("to %d\n", (int)value_of(fd, OVERLAY, "CRTC_X"));
    say("switches it off", COMMIT(fd, MODESET, {CRTC, "ACTIVE", 0}));
    say_what_is_shown(fd);
    say("switches it on", COMMIT(fd, MODESET, {CRTC, "ACTIVE", 1}));
    say_what_is_shown(fd);
    say("darkens it",
        COMMIT(fd, MODESET, {CRTC, "ACTIVE", 0}, {CRTC, "MODE_ID", 0}, {CONNECTOR, "CRTC_ID", 0},
               {PRIMARY, "FB_ID", 0}, {PRIMARY, "CRTC_ID", 0}, {OVERLAY, "FB_ID", 0},
               {OVERLAY, "CRTC_ID", 0}));
    say_what_is_shown(fd);
    say("lights both", COMMIT(fd, MODESET, LIGHTS(CRTC, OTHER_CONNECTOR, PRIMARY, mode, fbs[0]),
                              LIGHTS(OTHER_CRTC, CONNECTOR, OTHER_PRIMARY, mode, fbs[1])));
    say_what_is_shown(fd);
}

/* What flags mean */
static void try_flags(void)
{
    int fd = open_card(false), other, data;
    uint32_t fb = make_fb(fd, 64), next = make_fb(fd, 64), mode = mode_blob(fd, SLOW_FRAME);
    struct drm_mode_atomic empty = {.flags = 0}, reserved = {.reserved = 1};
    struct set flip = {PRIMARY, "FB_ID", next};
    int64_t begun;

    say("without the capability", COMMIT(fd, 0, {PRIMARY, "FB_ID", fb}));
    drmSetClientCap(fd, DRM_CLIENT_CAP_ATOMIC, 1);
    other = open_card(true);
    say("who isn't master", COMMIT(other, 0, {PRIMARY, "FB_ID", fb}));
    say("nothing", drmIoctl(fd, DRM_IOCTL_MODE_ATOMIC, &empty));
    empty.flags = EVENT;
    say("nothing with an event", drmIoctl(fd, DRM_IOCTL_MODE_ATOMIC, &empty));
    say("reserved field", drmIoctl(fd, DRM_IOCTL_MODE_ATOMIC, &reserved));
    say("unknown flag", COMMIT(fd, 0x1000, LIGHTS(CRTC, CONNECTOR, PRIMARY, mode, fb)));
    say("asynchronous",
        COMMIT(fd, DRM_MODE_PAGE_FLIP_ASYNC, LIGHTS(CRTC, CONNECTOR, PRIMARY, mode, fb)));
    say("a test with an event", COMMIT(fd, DRM_MODE_ATOMIC_TEST_ONLY | MODESET | EVENT,
                                       LIGHTS(CRTC, CONNECTOR, PRIMARY, mode, fb)));
    say("without a modeset", COMMIT(fd, 0, LIGHTS(CRTC, CONNECTOR, PRIMARY, mode, fb)));
    say("tests", COMMIT(fd, DRM_MODE_ATOMIC_TEST_ONLY | MODESET,
                        LIGHTS(CRTC, CONNECTOR, PRIMARY, mode, fb)));
    say_what_is_shown(fd);
    say("lights", COMMIT(fd, MODESET, LIGHTS(CRTC, CONNECTOR, PRIMARY, mode, fb)));
    begun = now();
    say("flips with an event", commit(fd, DRM_MODE_ATOMIC_NONBLOCK | EVENT, &flip, 1, &data));
    say("flips too early", COMMIT(fd, DRM_MODE_ATOMIC_NONBLOCK, {PRIMARY, "FB_ID", fb}));
    say("tests early", COMMIT(fd, DRM_MODE_ATOMIC_TEST_ONLY, {PRIMARY, "FB_ID", fb}));
    stay_in_frame(begun);
    await(fd);
    printf("events %d, of the CRTC %d, data %d\n", told.count, told.crtc == CRTC,
           told.data == &data);
    stay_in_frame(told.time);
    begun = now();
    say("blocks", COMMIT(fd, 0, {PRIMARY, "FB_ID", fb}));
    printf("for a frame: %d\n", now() - begun > 100 * (int64_t)MILLISECOND);
    say("flips at once", COMMIT(fd, DRM_MODE_ATOMIC_NONBLOCK, {PRIMARY, "FB_ID", next}));
    say("blocks until that is complete", COMMIT(fd, 0, {PRIMARY, "FB_ID", fb}));
    say("darkens with an event", COMMIT(fd, MODESET | EVENT, {CRTC, "ACTIVE", 0}));
    await(fd);
    printf("events %d\n", told.count);
    say("an event of a dark CRTC", COMMIT(fd, EVENT, {PRIMARY, "FB_ID", next}));
    say("without one", COMMIT(fd, 0, {PRIMARY, "FB_ID", next}));
    say_what_is_shown(fd);
}

/* A value that a property refuses, next to others that it takes */
static void refuse_values(void)
{
    int fd = open_card(true);
    uint32_t fb = make_fb(fd, 64), large = make_fb(fd, 128), mode = mode_blob(fd, 10), bytes, at;

    drmModeCreatePropertyBlob(fd, "bytes", 5, &bytes);
    say("lights", COMMIT(fd, MODESET, LIGHTS(CRTC, CONNECTOR, PRIMARY, mode, fb)));
    {
        const struct set refused[] = {
            {999, "FB_ID", fb},
            {ENCODER, "CRTC_ID", CRTC},
            {PRIMARY, "ACTIVE", 1},
            {PRIMARY, "type", 1},
            {PRIMARY, "IN_FORMATS", 0},
            {PRIMARY, "FB_ID", 999},
            {PRIMARY, "FB_ID", 0},
            {PRIMARY, "CRTC_ID", 0},
            {PRIMARY, "CRTC_ID", 99},
            {PRIMARY, "CRTC_ID", OTHER_CRTC},
            {PRIMARY, "SRC_X", 1},
            {PRIMARY, "SRC_Y", 1},
            {PRIMARY, "SRC_W", (64 << 16) + 1},
            {PRIMARY, "SRC_H", 65 << 16},
            {PRIMARY, "SRC_H", (uint64_t)1 << 32},
            {PRIMARY, "CRTC_X", INT32_MAX},
            {PRIMARY, "CRTC_Y", INT32_MAX - 63},
            {PRIMARY, "CRTC_X", (uint64_t)INT32_MAX + 1},
            {PRIMARY, "CRTC_W", (uint64_t)INT32_MAX + 1},
            {PRIMARY, "CRTC_H", UINT64_MAX},
            {OVERLAY, "FB_ID", fb},
            {OVERLAY, "CRTC_ID", CRTC},
            {CRTC, "ACTIVE", 2},
            {CRTC, "MODE_ID", 0},
            {CRTC, "MODE_ID", 99},
            {CRTC, "MODE_ID", bytes},
            {CRTC, "OUT_FENCE_PTR", 4096},
            {OTHER_CRTC, "ACTIVE", 1},
            {OTHER_CRTC, "MODE_ID", mode},
            {CONNECTOR, "CRTC_ID", 0},
            {CONNECTOR, "CRTC_ID", OTHER_CRTC},
            {OTHER_CONNECTOR, "CRTC_ID", CRTC},
            {CONNECTOR, "DPMS", 0},
            {CONNECTOR, "link-status", 2},
            {CONNECTOR, "non-desktop", 0},
        };
        const struct set taken[] = {
            {PRIMARY, "FB_ID", large},    {PRIMARY, "SRC_X", 64 << 16},
            {PRIMARY, "SRC_W", 32 << 16}, {PRIMARY, "CRTC_X", (uint64_t)INT32_MIN},
            {PRIMARY, "CRTC_W", 1000},    {CRTC, "ACTIVE", 1},
            {CRTC, "OUT_FENCE_PTR", 0},   {CONNECTOR, "link-status", 0},
            {CONNECTOR, "CRTC_ID", CRTC}, {CRTC, "MODE_ID", mode},
        };

        for (at = 0; at < sizeof refused / sizeof refused[0]; at++)
            printf("%u %s %lld: %s\n", refused[at].object, refused[at].name,
                   (long long)refused[at].value < 0 || refused[at].value > 1 << 24
                       ? -1
                       : (long long)refused[at].value,
                   error_of(commit(fd, MODESET, &refused[at], 1, NULL)));
        for (at = 0; at < sizeof taken / sizeof taken[0]; at++)
            printf("%s: %s\n", taken[at].name, error_of(commit(fd, MODESET, &taken[at], 1, NULL)));
    }
}

/* A lessee commits what it has, and nothing else. */
static void commit_a_lease(void)
{
    const uint32_t objects[] = {OTHER_CRTC, OTHER_CONNECTOR, OTHER_PRIMARY};
    int fd = open_card(true), lessee;
    uint32_t fb = make_fb(fd, 64), mode, id;

    mode = mode_blob(fd, 10);
    lessee = drmModeCreateLease(fd, objects, 3, O_CLOEXEC, &id);
    say("atomic", drmSetClientCap(lessee, DRM_CLIENT_CAP_ATOMIC, 1));
    say("what it has",
        COMMIT(lessee, MODESET, LIGHTS(OTHER_CRTC, OTHER_CONNECTOR, OTHER_PRIMARY, mode, fb)));
    say_what_is_shown(fd);
    say("another CRTC", COMMIT(lessee, MODESET, {CRTC, "ACTIVE", 0}));
    say("another plane", COMMIT(lessee, 0, {OVERLAY, "FB_ID", 0}));
    say("another connector", COMMIT(lessee, MODESET, {CONNECTOR, "CRTC_ID", 0}));
    say("a plane on another CRTC", COMMIT(lessee, 0, {OTHER_PRIMARY, "CRTC_ID", CRTC}));
    say("a connector on another CRTC", COMMIT(lessee, MODESET, {OTHER_CONNECTOR, "CRTC_ID", CRTC}));
    say("what it has and another plane",
        COMMIT(lessee, MODESET, {OTHER_CRTC, "ACTIVE", 0}, {OVERLAY, "FB_ID", 0}));
    say_what_is_shown(fd);
    say("revokes", drmModeRevokeLease(fd, id));
    say("what it had", COMMIT(lessee, MODESET, {OTHER_CRTC, "ACTIVE", 0}));
    say("its owner", COMMIT(fd, MODESET, {OTHER_CRTC, "ACTIVE", 0}));
    say_what_is_shown(fd);
}

/* Waits for a line, after it has said so. */
static void pause_at(const char *what)
{
    puts(what);
    fflush(stdout);
    getchar();
}

/* Commits whose last change is refused. */
static void deny(void)
{
    int fd = open_card(true);
    uint32_t fbs[] = {make_fb(fd, 64), make_fb(fd, 64), make_fb(fd, 64), make_fb(fd, 64)},
             mode = mode_blob(fd, 10);

    say("lights both", COMMIT(fd, MODESET, LIGHTS(CRTC, CONNECTOR, PRIMARY, mode, fbs[0]),
                              LIGHTS(OTHER_CRTC, OTHER_CONNECTOR, OTHER_PRIMARY, mode, fbs[1])));
    pause_at("lit");
    say("the last is outside",
        COMMIT(fd, 0, {PRIMARY, "FB_ID", fbs[2]}, {OTHER_PRIMARY, "FB_ID", fbs[3]},
               SHOWS(OVERLAY, CRTC, fbs[2]), {OVERLAY, "SRC_X", 1}));
    pause_at("refused");
    /* another process that has the file removes a framebuffer */
    if (fork() == 0)
        _exit(drmModeRmFB(fd, fbs[3]) != 0);
    wait(NULL);
    pause_at("removed");
    say("the last isn't there",
        COMMIT(fd, 0, {PRIMARY, "FB_ID", fbs[2]}, {OTHER_PRIMARY, "FB_ID", fbs[3]}));
    printf("planes have %d %d\n", (int)value_of(fd, PRIMARY, "FB_ID") == (int)fbs[0],
           (int)value_of(fd, OTHER_PRIMARY, "FB_ID") == (int)fbs[1]);
    pause_at("refused again");
    say("another one", COMMIT(fd, 0, {PRIMARY, "FB_ID", fbs[2]}, {OTHER_PRIMARY, "FB_ID", fbs[0]}));
}

/* The server denies the last change: a client of the server has removed its framebuffer, the next
 * one after this program's, while the server answered the first change late. */
static void take_back(void)
{
    int fd = open_card(true);
    uint32_t fbs[] = {make_fb(fd, 64), make_fb(fd, 64)}, mode = mode_blob(fd, 10);

    say("lights", COMMIT(fd, MODESET, LIGHTS(CRTC, CONNECTOR, PRIMARY, mode, fbs[0])));
    pause_at("lit");
    say("the last is gone",
        COMMIT(fd, 0, {PRIMARY, "FB_ID", fbs[1]}, SHOWS(OVERLAY, CRTC, fbs[1] + 1)));
    say_what_is_shown(fd);
    printf("planes have %d %d\n", (int)value_of(fd, PRIMARY, "FB_ID") == (int)fbs[0],
           (int)value_of(fd, OVERLAY, "FB_ID") == 0);
    say("another one", COMMIT(fd, 0, {PRIMARY, "FB_ID", fbs[1]}, SHOWS(OVERLAY, CRTC, fbs[0])));
    say_what_is_shown(fd);
}

static void keep_blobs(void)
{
    int fd = open_card(true), other = open_card(true);
    uint32_t fb = make_fb(fd, 64), mode = mode_blob(fd, 10), id = 0, none, at;
    struct drm_mode_get_blob short_one;
    drmModePropertyBlobRes *found;
    char bytes[8] = "eight...";
    drmModeFormatModifierIterator formats = {0};

    say("creates", drmModeCreatePropertyBlob(fd, bytes, sizeof bytes, &id));
    found = drmModeGetPropertyBlob(other, id);
    printf("bytes %u, same %d\n", found->length, memcmp(found->data, bytes, sizeof bytes) == 0);
    drmModeFreePropertyBlob(found);
    short_one = (struct drm_mode_get_blob){id, 4, (uintptr_t)bytes};
    say("has room for a part", drmIoctl(fd, DRM_IOCTL_MODE_GETPROPBLOB, &short_one));
    printf("bytes %u, unchanged %d\n", short_one.length, memcmp(bytes, "eight...", 8) == 0);
    say("of no bytes", drmModeCreatePropertyBlob(fd, bytes, 0, &none) != 0 ? -errno : 0);
    say("another's", drmModeDestroyPropertyBlob(other, id));
    say("destroys", drmModeDestroyPropertyBlob(fd, id));
    say("destroys it again", drmModeDestroyPropertyBlob(fd, id));
    say("lights", COMMIT(fd, MODESET, LIGHTS(CRTC, CONNECTOR, PRIMARY, mode, fb)));
    say("destroys the mode that is set", drmModeDestroyPropertyBlob(fd, mode));
    found = drmModeGetPropertyBlob(fd, (uint32_t)value_of(fd, CRTC, "MODE_ID"));
    printf("which stays %d\n", found != NULL && found->length == sizeof(drmModeModeInfo));
    drmModeFreePropertyBlob(found);
    say("and is not destroyed", drmModeDestroyPropertyBlob(fd, mode));
    found = drmModeGetPropertyBlob(fd, (uint32_t)value_of(fd, PRIMARY, "IN_FORMATS"));
    for (at = 0; drmModeFormatModifierBlobIterNext(found, &formats); at++) {
        if (formats.fmt == DRM_FORMAT_XRGB8888)
            printf("XRGB8888 with modifier %d\n", (int)formats.mod);
    }
    printf("formats %d\n", at > 20);
    drmModeFreePropertyBlob(found);
}

static void add_with_modifiers(void)
{
    int fd = open_card(true);
    struct drm_mode_create_dumb dumb = {.width = 64, .height = 64, .bpp = 32};
    uint32_t handles[4] = {0}, pitches[4] = {0}, offsets[4] = {0}, id = 0;
    uint64_t modifiers[4] = {DRM_FORMAT_MOD_LINEAR};
    drmModeFB2 *found;

    drmIoctl(fd, DRM_IOCTL_MODE_CREATE_DUMB, &dumb);
    handles[0] = dumb.handle;
    pitches[0] = dumb.pitch;
    say("linear", drmModeAddFB2WithModifiers(fd, 64, 64, DRM_FORMAT_ARGB8888, handles, pitches,
                                             offsets, modifiers, &id, DRM_MODE_FB_MODIFIERS));
    found = drmModeGetFB2(fd, id);
    printf("%.4s, flags %u, modifier %d\n", (const char *)&found->pixel_format, found->flags,
           (int)found->modifier);
    drmModeFreeFB2(found);
    modifiers[0] = I915_FORMAT_MOD_X_TILED;
    say("tiled", drmModeAddFB2WithModifiers(fd, 64, 64, DRM_FORMAT_ARGB8888, handles, pitches,
                                            offsets, modifiers, &id, DRM_MODE_FB_MODIFIERS));
    modifiers[0] = DRM_FORMAT_MOD_LINEAR;
    modifiers[1] = 1;
    say("of a plane that is missing",
        drmModeAddFB2WithModifiers(fd, 64, 64, DRM_FORMAT_ARGB8888, handles, pitches, offsets,
                                   modifiers, &id, DRM_MODE_FB_MODIFIERS));
}

/* What older calls leave for commits, and commits for older calls. */
static void mix(void)
{
    int fd = open_card(true);
    uint32_t fb = make_fb(fd, 128), next = make_fb(fd, 128), small = make_fb(fd, 64),
             connector = CONNECTOR;
    drmModeModeInfo mode = mode_of(SLOW_FRAME);
    drmModeCrtc *found;
    int64_t begun;

    say("sets a mode", drmModeSetCrtc(fd, CRTC, fb, 16, 0, &connector, 1, &mode));
    printf("active %d, mode %d, plane %d from %d, %d wide, connector %d\n",
           (int)value_of(fd, CRTC, "ACTIVE"), value_of(fd, CRTC, "MODE_ID") != 0,
           value_of(fd, PRIMARY, "FB_ID") == fb, (int)value_of(fd, PRIMARY, "SRC_X") >> 16,
           (int)value_of(fd, PRIMARY, "CRTC_W"), (int)value_of(fd, CONNECTOR, "CRTC_ID"));
    say("flips by a commit", COMMIT(fd, 0, {PRIMARY, "FB_ID", next}));
    begun = now();
    say("to one that is too small", COMMIT(fd, 0, {PRIMARY, "FB_ID", small}));
    say("flips by a flip", drmModePageFlip(fd, CRTC, fb, 0, NULL));
    printf("plane %d\n", value_of(fd, PRIMARY, "FB_ID") == fb);
    say("flips too early by a commit",
        COMMIT(fd, DRM_MODE_ATOMIC_NONBLOCK, {PRIMARY, "FB_ID", next}));
    stay_in_frame(begun);
    say("moves by a commit", COMMIT(fd, 0, {PRIMARY, "SRC_X", 0}));
    found = drmModeGetCrtc(fd, CRTC);
    printf("from %u, %u wide\n", found->x, found->mode.hdisplay);
    drmModeFreeCrtc(found);
    say("removes what is shown", drmModeRmFB(fd, fb));
    printf("plane %d of CRTC %d\n", (int)value_of(fd, PRIMARY, "FB_ID"),
           (int)value_of(fd, PRIMARY, "CRTC_ID"));
    say("shows another", COMMIT(fd, 0, SHOWS(PRIMARY, CRTC, next)));
    say_what_is_shown(fd);
    say("darkens it", drmModeSetCrtc(fd, CRTC, 0, 0, 0, NULL, 0, NULL));
    printf("active %d, mode %d, plane %d, connector %d\n", (int)value_of(fd, CRTC, "ACTIVE"),
           value_of(fd, CRTC, "MODE_ID") != 0, (int)value_of(fd, PRIMARY, "FB_ID"),
           (int)value_of(fd, CONNECTOR, "CRTC_ID"));
    say("shows a plane",
        drmModeSetPlane(fd, OVERLAY, CRTC, small, 0, 3, 4, 64, 64, 0, 0, 64 << 16, 64 << 16));
    printf("plane %d at %d, %d\n", value_of(fd, OVERLAY, "FB_ID") == small,
           (int)value_of(fd, OVERLAY, "CRTC_X"), (int)value_of(fd, OVERLAY, "CRTC_Y"));
}

/* So many frames on two CRTCs and an overlay plane, which stays; each is one commit. */
static void keep_on(int frames)
{
    int fd = open_card(true), at, failed = 0;
    uint32_t fbs[] = {make_fb(fd, 64), make_fb(fd, 64)}, mode = mode_blob(fd, 10);
    drmModeAtomicReq *requests[2];
    uint64_t value;
    uint32_t id = property(fd, PRIMARY, "FB_ID", &value);

    failed += COMMIT(fd, MODESET, LIGHTS(CRTC, CONNECTOR, PRIMARY, mode, fbs[0]),
                     LIGHTS(OTHER_CRTC, OTHER_CONNECTOR, OTHER_PRIMARY, mode, fbs[0]),
                     SHOWS(OVERLAY, CRTC, fbs[1]))
              != 0;
    for (at = 0; at < 2; at++) {
        requests[at] = drmModeAtomicAlloc();
        drmModeAtomicAddProperty(requests[at], PRIMARY, id, fbs[1 - at]);
        drmModeAtomicAddProperty(requests[at], OTHER_PRIMARY, id, fbs[1 - at]);
        drmModeAtomicAddProperty(requests[at], OVERLAY, id, fbs[1]);
    }
    for (at = 0; at < frames; at++) {
        failed += drmModeAtomicCommit(fd, requests[at % 2], DRM_MODE_ATOMIC_TEST_ONLY, NULL) != 0;
        failed +=
            drmModeAtomicCommit(fd, requests[at % 2], DRM_MODE_ATOMIC_NONBLOCK | EVENT, NULL) != 0;
        for (told.count = 0; told.count < 2;)
            await(fd);
    }
    printf("frames %d, failed %d\n", frames, failed);
}

/* What can't be driven, on the device of the server's own topology: its second connector and its
 * second plane are for CRTC 2 alone. */
static void try_routes(void)
{
    enum { PLANE = 3, SECOND_PLANE = 4, BOTH = 7, SECOND_ONLY = 8 };
    int fd = open_card(true);
    uint32_t fb = make_fb(fd, 64), mode = mode_blob(fd, 10);

    say("a connector of another CRTC",
        COMMIT(fd, MODESET, LIGHTS(CRTC, SECOND_ONLY, PLANE, mode, fb)));
    say("a plane of another CRTC", COMMIT(fd, MODESET, LIGHTS(CRTC, BOTH, SECOND_PLANE, mode, fb)));
    say("its own", COMMIT(fd, MODESET, LIGHTS(CRTC, BOTH, PLANE, mode, fb)));
    say("the second one's",
        COMMIT(fd, MODESET, LIGHTS(OTHER_CRTC, SECOND_ONLY, SECOND_PLANE, mode, fb)));
    say("both connectors to the second",
        COMMIT(fd, MODESET, {BOTH, "CRTC_ID", OTHER_CRTC}, {CRTC, "ACTIVE", 0},
               {CRTC, "MODE_ID", 0}, {PLANE, "FB_ID", 0}, {PLANE, "CRTC_ID", 0}));
}

static const struct {
    const char *name;
    void (*tried)(void);
} all[] = {
    {"routes", try_routes}, {"properties", describe},  {"shows", show},
    {"flags", try_flags},   {"values", refuse_values}, {"lease", commit_a_lease},
    {"denied", deny},       {"blobs", keep_blobs},     {"modifiers", add_with_modifiers},
    {"mixed", mix},         {"taken-back", take_back},
};

int main(int count, char **words)
{
    const char *what = count > 1 ? words[1] : "";
    size_t at;

    if (strcmp(what, "steady") == 0)
        keep_on(atoi(words[2]));
    for (at = 0; at < sizeof all / sizeof all[0]; at++) {
        if (strcmp(what, all[at].name) == 0)
            all[at].tried();
    }
    return 0;
}
