/* For tests: random atomic commits, through libdrm alone. The first argument says how many; a line
 * is written for what was found.
 */
#define _GNU_SOURCE
#include "libdrm_atomic.h"

/* A property of an object, and values that it may be set to in a random commit */
struct choice {
    uint32_t object;
    const char *name;
    uint64_t values[5];
    uint32_t count, id;
};

#define MOST_VALUES 80

/* All that commits and the server keep of the device */
struct picture {
    uint64_t values[MOST_VALUES];
    uint32_t count, crtcs[2], overlay;
};

static struct picture picture_of(int fd)
{
    static const uint32_t objects[] = {PRIMARY,    OTHER_PRIMARY, OVERLAY,        CRTC,
                                       OTHER_CRTC, CONNECTOR,     OTHER_CONNECTOR};
    drmModeCrtc *crtcs[] = {drmModeGetCrtc(fd, CRTC), drmModeGetCrtc(fd, OTHER_CRTC)};
    drmModePlane *plane = drmModeGetPlane(fd, OVERLAY);
    struct picture picture;
    size_t at;
    uint32_t each;

    memset(&picture, 0, sizeof picture);
    for (at = 0; at < sizeof objects / sizeof objects[0]; at++) {
        drmModeObjectProperties *listed =
            drmModeObjectGetProperties(fd, objects[at], DRM_MODE_OBJECT_ANY);

        for (each = 0; each < listed->count_props && picture.count < MOST_VALUES; each++) {
            if (listed->props[each] != 0)
                picture.values[picture.count++] = listed->prop_values[each];
        }
        drmModeFreeObjectProperties(listed);
    }
    picture.crtcs[0] = crtcs[0]->buffer_id;
    picture.crtcs[1] = crtcs[1]->buffer_id;
    picture.overlay = plane->fb_id;
    drmModeFreeCrtc(crtcs[0]);
    drmModeFreeCrtc(crtcs[1]);
    drmModeFreePlane(plane);
    return picture;
}

/* What a plane shows by its properties: nothing while its CRTC is not active. */
static uint32_t shown_by(int fd, uint32_t plane)
{
    uint64_t crtc = value_of(fd, plane, "CRTC_ID");

    return crtc != 0 && value_of(fd, (uint32_t)crtc, "ACTIVE") == 1
               ? (uint32_t)value_of(fd, plane, "FB_ID")
               : 0;
}

static bool is_as_the_server_shows(int fd, const struct picture *picture)
{
    return shown_by(fd, PRIMARY) == picture->crtcs[0]
           && shown_by(fd, OTHER_PRIMARY) == picture->crtcs[1]
           && shown_by(fd, OVERLAY) == picture->overlay;
}

/* Adds what lights a CRTC, or darkens it. */
static void add_whole(drmModeAtomicReq *request, int fd, uint32_t crtc, uint32_t mode, uint32_t fb)
{
    uint32_t plane = crtc == CRTC ? PRIMARY : OTHER_PRIMARY;
    uint32_t connector = crtc == CRTC ? CONNECTOR : OTHER_CONNECTOR;
    const struct set lit[] = {LIGHTS(crtc, connector, plane, mode, fb)};
    const struct set dark[] = {{crtc, "ACTIVE", 0},
                               {crtc, "MODE_ID", 0},
                               {connector, "CRTC_ID", 0},
                               {plane, "FB_ID", 0},
                               {plane, "CRTC_ID", 0}};
    const struct set *sets = fb != 0 ? lit : dark;
    size_t count = fb != 0 ? sizeof lit / sizeof lit[0] : sizeof dark / sizeof dark[0], at;
    uint64_t value;

    for (at = 0; at < count; at++)
        drmModeAtomicAddProperty(request, sets[at].object,
                                 property(fd, sets[at].object, sets[at].name, &value),
                                 sets[at].value);
}

/* Adds what shows a framebuffer on the overlay plane, or none. */
static void add_overlay(drmModeAtomicReq *request, int fd, uint32_t crtc, uint32_t fb)
{
    const struct set sets[] = {{OVERLAY, "FB_ID", fb}, {OVERLAY, "CRTC_ID", fb != 0 ? crtc : 0}};
    uint64_t value;
    size_t at;

    for (at = 0; at < 2; at++)
        drmModeAtomicAddProperty(request, OVERLAY, property(fd, OVERLAY, sets[at].name, &value),
                                 sets[at].value);
}

/* Two of three begin with what is good by itself. */
static drmModeAtomicReq *random_request(int fd, const struct choice *choices, size_t count,
                                        uint32_t mode, const uint32_t *fbs)
{
    drmModeAtomicReq *request = drmModeAtomicAlloc();
    uint32_t crtc = rand() % 2 ? CRTC : OTHER_CRTC, fb = rand() % 3 ? fbs[rand() % 2] : 0;
    int way = rand() % 3, more = way == 0 ? 1 + rand() % 3 : rand() % 2;

    if (way == 1)
        add_whole(request, fd, crtc, mode, fb);
    if (way == 2)
        add_overlay(request, fd, crtc, fb);
    while (more-- > 0) {
        const struct choice *choice = &choices[(size_t)rand() % count];

        drmModeAtomicAddProperty(request, choice->object, choice->id,
                                 choice->values[(uint32_t)rand() % choice->count]);
    }
    return request;
}

/* Where commits put the numbers of their fences */
static int32_t fences[2] = {-1, -1};

/* Closes them, and returns whether there was one. */
static bool close_fences(void)
{
    bool was_one = fences[0] != -1 || fences[1] != -1;
    int at;

    for (at = 0; at < 2; at++) {
        if (fences[at] != -1)
            close(fences[at]);
        fences[at] = -1;
    }
    return was_one;
}

/* A fence that is signaled. */
static int fence_of(int fd)
{
    uint32_t handle = 0;
    int file = -1;

    drmSyncobjCreate(fd, DRM_SYNCOBJ_CREATE_SIGNALED, &handle);
    drmSyncobjExportSyncFile(fd, handle, &file);
    return file;
}

static uint32_t gamma_blob(int fd)
{
    struct drm_color_lut entries[256] = {{0}};
    uint32_t blob = 0;

    drmModeCreatePropertyBlob(fd, entries, sizeof entries, &blob);
    return blob;
}

/* Random commits: one that fails, or only tests, leaves everything unchanged, and after each of
 * them the server shows what the properties say. */
static void commit_at_random(int commits)
{
    static const uint32_t flags[] = {0, MODESET, MODESET, MODESET | DRM_MODE_ATOMIC_TEST_ONLY};
    int fd = open_card(true), at, done = 0, changed = 0, differs = 0;
    uint32_t fbs[] = {make_fb(fd, 64), make_fb(fd, 64)}, small = make_fb(fd, 32);
    uint32_t mode = mode_blob(fd, 1), other = mode_blob(fd, 2), gamma = gamma_blob(fd);
    uint64_t fence = (uint64_t)fence_of(fd);
    struct choice choices[] = {
        {PRIMARY, "FB_ID", {0, fbs[0], fbs[1], small, 999}, 5, 0},
        {PRIMARY, "CRTC_ID", {0, CRTC, OTHER_CRTC}, 3, 0},
        {PRIMARY, "SRC_W", {64 << 16, 32 << 16, 65 << 16}, 3, 0},
        {OTHER_PRIMARY, "FB_ID", {0, fbs[0], fbs[1]}, 3, 0},
        {OVERLAY, "FB_ID", {0, fbs[0], fbs[1]}, 3, 0},
        {OVERLAY, "CRTC_ID", {0, CRTC, OTHER_CRTC}, 3, 0},
        {OVERLAY, "CRTC_X", {0, (uint64_t)-5, INT32_MAX}, 3, 0},
        {CRTC, "ACTIVE", {0, 1}, 2, 0},
        {CRTC, "MODE_ID", {0, mode, other}, 3, 0},
        {OTHER_CRTC, "ACTIVE", {0, 1}, 2, 0},
        {CRTC, "GAMMA_LUT", {0, gamma, mode}, 3, 0},
        {CRTC, "OUT_FENCE_PTR", {0, (uintptr_t)&fences[0], 4096}, 3, 0},
        {OTHER_CRTC, "OUT_FENCE_PTR", {0, (uintptr_t)&fences[1]}, 2, 0},
        {PRIMARY, "IN_FENCE_FD", {(uint64_t)-1, fence, (uint64_t)fd, 999}, 4, 0},
        {OVERLAY, "IN_FENCE_FD", {(uint64_t)-1, fence}, 2, 0},
        {CONNECTOR, "CRTC_ID", {0, CRTC, OTHER_CRTC}, 3, 0},
        {OTHER_CONNECTOR, "CRTC_ID", {0, CRTC, OTHER_CRTC}, 3, 0},
    };
    const size_t count = sizeof choices / sizeof choices[0];
    struct picture before, after;
    uint64_t value;
    size_t each;

    for (each = 0; each < count; each++)
        choices[each].id = property(fd, choices[each].object, choices[each].name, &value);
    for (at = 0; at < commits; at++) {
        uint32_t flag = flags[rand() % 4];
        drmModeAtomicReq *request = random_request(fd, choices, count, mode, fbs);
        int failed;

        before = picture_of(fd);
        failed = drmModeAtomicCommit(fd, request, flag, NULL);
        after = picture_of(fd);
        done += failed == 0 && flag != flags[3];
        changed += (failed != 0 || flag == flags[3])
                   && (close_fences() || memcmp(&before, &after, sizeof after) != 0);
        close_fences();
        differs += !is_as_the_server_shows(fd, &after);
        drmModeAtomicFree(request);
    }
    printf("done %d, refused %d, changed by a refusal %d, other than the server shows %d\n",
           done > commits / 10, done < commits * 9 / 10, changed, differs);
}

int main(int count, char **words)
{
    commit_at_random(count > 1 ? atoi(words[1]) : 0);
    return 0;
}
