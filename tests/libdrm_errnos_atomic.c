/* For tests: atomic commits that fail. Each is without DRM_MODE_ATOMIC_TEST_ONLY unless it says so.
 */
#define _GNU_SOURCE
#include "libdrm_errnos.h"

#include <errno.h>
#include <stddef.h>
#include <string.h>
#include <sys/ioctl.h>

#define MOST 16
#define MODESET DRM_MODE_ATOMIC_ALLOW_MODESET
#define TEST DRM_MODE_ATOMIC_TEST_ONLY

static uint32_t property_of(struct context *context, uint32_t object, const char *name)
{
    uint32_t ids[64];
    uint64_t values[64];
    struct drm_mode_obj_get_properties all = {(uintptr_t)ids, (uintptr_t)values, 64, object,
                                              DRM_MODE_OBJECT_ANY};
    uint32_t i;

    if (ioctl(context->card, DRM_IOCTL_MODE_OBJ_GETPROPERTIES, &all) != 0)
        return NO_ID;
    for (i = 0; i < all.count_props; i++) {
        struct drm_mode_get_property property = {.prop_id = ids[i]};

        if (ioctl(context->card, DRM_IOCTL_MODE_GETPROPERTY, &property) == 0
            && strcmp(property.name, name) == 0)
            return ids[i];
    }
    return NO_ID;
}

int commit_of(struct context *context, int file, uint32_t flags, const struct set *sets,
              uint32_t count)
{
    uint32_t objects[MOST], counts[MOST], properties[MOST], i;
    uint64_t values[MOST];
    struct drm_mode_atomic atomic = {flags,
                                     count,
                                     (uintptr_t)objects,
                                     (uintptr_t)counts,
                                     (uintptr_t)properties,
                                     (uintptr_t)values,
                                     0,
                                     0};

    for (i = 0; i < count; i++) {
        objects[i] = sets[i].object;
        counts[i] = 1;
        properties[i] = property_of(context, sets[i].object, sets[i].name);
        values[i] = sets[i].value;
    }
    return ioctl(file, DRM_IOCTL_MODE_ATOMIC, &atomic);
}

#define COMMIT(flags, ...)                                                                         \
    commit_of(context, context->card, flags, (const struct set[]){__VA_ARGS__},                    \
              sizeof((const struct set[]){__VA_ARGS__}) / sizeof(struct set))
#define CRTC context->crtcs[0]
#define OTHER_CRTC context->crtcs[1]
#define PRIMARY context->planes[0]
#define OVERLAY context->planes[2]
#define CONNECTOR context->connectors[0]
#define OTHER_CONNECTOR context->connectors[1]
/* A plane that shows so many columns of a framebuffer */
#define SHOWS(plane, crtc, fb, width)                                                              \
    {plane, "FB_ID", fb}, {plane, "CRTC_ID", crtc}, {plane, "SRC_X", 0}, {plane, "SRC_Y", 0},      \
        {plane, "SRC_W", (uint64_t)(width) << 16}, {plane, "SRC_H", SIDE << 16},                   \
        {plane, "CRTC_X", 0}, {plane, "CRTC_Y", 0}, {plane, "CRTC_W", SIDE},                       \
    {                                                                                              \
        plane, "CRTC_H", SIDE                                                                      \
    }

static uint64_t blob_of(struct context *context, const struct drm_mode_modeinfo *mode)
{
    struct drm_mode_create_blob blob = {.data = (uintptr_t)mode, .length = sizeof(*mode)};

    return ioctl(context->card, DRM_IOCTL_MODE_CREATEPROPBLOB, &blob) == 0 ? blob.blob_id : 0;
}

static uint64_t mode_blob(struct context *context)
{
    struct drm_mode_modeinfo mode = mode_of(SIDE, SIDE);

    return blob_of(context, &mode);
}

static int without_the_capability(struct context *context)
{
    return COMMIT(0, {PRIMARY, "FB_ID", 0});
}

static int turns_it_on(struct context *context)
{
    struct drm_set_client_cap cap = {DRM_CLIENT_CAP_ATOMIC, 1};

    return ioctl(context->card, DRM_IOCTL_SET_CLIENT_CAP, &cap);
}

static int of_a_guest(struct context *context)
{
    return commit_of(context, context->guest, 0, NULL, 0);
}

static int of_nothing(struct context *context)
{
    return commit_of(context, context->card, 0, NULL, 0);
}

static int nothing_with_an_event(struct context *context)
{
    return commit_of(context, context->card, DRM_MODE_PAGE_FLIP_EVENT, NULL, 0);
}

static int other_flags(struct context *context)
{
    return commit_of(context, context->card, 0x10, NULL, 0);
}

static int at_once(struct context *context)
{
    return commit_of(context, context->card, DRM_MODE_PAGE_FLIP_ASYNC, NULL, 0);
}

static int a_test_with_an_event(struct context *context)
{
    return commit_of(context, context->card, TEST | DRM_MODE_PAGE_FLIP_EVENT, NULL, 0);
}

static int no_such_object(struct context *context)
{
    return COMMIT(0, {NO_ID, "FB_ID", 0});
}

static int an_encoder(struct context *context)
{
    return COMMIT(0, {context->encoders[0], "FB_ID", 0});
}

static int no_such_property(struct context *context)
{
    return COMMIT(0, {PRIMARY, "no such property", 0});
}

static int property_of_another_object(struct context *context)
{
    uint32_t object = CRTC, count = 1, property = property_of(context, PRIMARY, "FB_ID");
    uint64_t value = 0;
    struct drm_mode_atomic atomic = {.count_objs = 1,
                                     .objs_ptr = (uintptr_t)&object,
                                     .count_props_ptr = (uintptr_t)&count,
                                     .props_ptr = (uintptr_t)&property,
                                     .prop_values_ptr = (uintptr_t)&value};

    return ioctl(context->card, DRM_IOCTL_MODE_ATOMIC, &atomic);
}

static int immutable_property(struct context *context)
{
    return COMMIT(0, {PRIMARY, "type", 0});
}

static int active_of_2(struct context *context)
{
    return COMMIT(MODESET, {CRTC, "ACTIVE", 2});
}

static int no_such_mode(struct context *context)
{
    return COMMIT(MODESET, {CRTC, "MODE_ID", NO_ID});
}

/* Lights the CRTC with a mode, as a test. */
static int test_of_a_mode(struct context *context, const struct drm_mode_modeinfo *mode)
{
    return COMMIT(MODESET | TEST, {CRTC, "ACTIVE", 1}, {CRTC, "MODE_ID", blob_of(context, mode)},
                  {CONNECTOR, "CRTC_ID", CRTC}, SHOWS(PRIMARY, CRTC, context->fb, SIDE));
}

static int mode_below_the_sync(struct context *context)
{
    struct drm_mode_modeinfo mode = mode_of(SIDE, SIDE);

    mode.vtotal = 1;
    return test_of_a_mode(context, &mode);
}

static int mode_with_a_high_clock(struct context *context)
{
    struct drm_mode_modeinfo mode = mode_of(SIDE, SIDE);

    mode.clock = 0x80000000U;
    return test_of_a_mode(context, &mode);
}

static int mode_with_an_aspect_ratio(struct context *context)
{
    struct drm_mode_modeinfo mode = mode_of(SIDE, SIDE);

    mode.flags = DRM_MODE_FLAG_PIC_AR_4_3;
    return test_of_a_mode(context, &mode);
}

static int no_such_framebuffer(struct context *context)
{
    return COMMIT(0, {PRIMARY, "FB_ID", NO_ID});
}

static int no_such_crtc(struct context *context)
{
    return COMMIT(0, {PRIMARY, "CRTC_ID", NO_ID});
}

static int out_fence(struct context *context)
{
    return COMMIT(0, {CRTC, "OUT_FENCE_PTR", 0});
}

static int out_fence_at_a_wrong_address(struct context *context)
{
    return COMMIT(0, {CRTC, "OUT_FENCE_PTR", 4096});
}

static int out_fence_of_a_dark_crtc(struct context *context)
{
    int32_t file = 0;

    return COMMIT(0, {CRTC, "OUT_FENCE_PTR", (uintptr_t)&file});
}

static int no_in_fence(struct context *context)
{
    return COMMIT(TEST, {PRIMARY, "IN_FENCE_FD", (uint64_t)-1});
}

static int in_fence_of_a_node(struct context *context)
{
    return COMMIT(TEST, {PRIMARY, "IN_FENCE_FD", (uint64_t)context->guest});
}

static int in_fence_of_no_descriptor(struct context *context)
{
    return COMMIT(TEST, {PRIMARY, "IN_FENCE_FD", 1000});
}

static int in_fence_below_the_range(struct context *context)
{
    return COMMIT(TEST, {PRIMARY, "IN_FENCE_FD", (uint64_t)-2});
}

static int of_nothing_that_blocks(struct context *context)
{
    return COMMIT(0, {PRIMARY, "FB_ID", context->fb});
}

static int fence_of_the_flip = -1;

static int flips_with_a_fence(struct context *context)
{
    return COMMIT(DRM_MODE_ATOMIC_NONBLOCK, {CRTC, "OUT_FENCE_PTR", (uintptr_t)&fence_of_the_flip});
}

static int in_fence(struct context *context)
{
    return COMMIT(TEST, {PRIMARY, "IN_FENCE_FD", (uint64_t)fence_of_the_flip});
}

static int two_in_fences(struct context *context)
{
    return COMMIT(TEST, {PRIMARY, "IN_FENCE_FD", (uint64_t)fence_of_the_flip},
                  {PRIMARY, "IN_FENCE_FD", (uint64_t)fence_of_the_flip});
}

static int blocks_after_that(struct context *context)
{
    return COMMIT(0, {PRIMARY, "IN_FENCE_FD", (uint64_t)fence_of_the_flip});
}

static int no_such_gamma(struct context *context)
{
    return COMMIT(TEST, {CRTC, "GAMMA_LUT", NO_ID});
}

/* A blob of a mode isn't one of whole entries. */
static int gamma_of_another_size(struct context *context)
{
    return COMMIT(TEST, {CRTC, "GAMMA_LUT", mode_blob(context)});
}

static int no_gamma(struct context *context)
{
    return COMMIT(TEST, {CRTC, "GAMMA_LUT", 0});
}

static int size_of_gamma(struct context *context)
{
    return COMMIT(TEST, {CRTC, "GAMMA_LUT_SIZE", 16});
}

static int framebuffer_without_a_crtc(struct context *context)
{
    return COMMIT(0, {PRIMARY, "FB_ID", context->fb});
}

static int crtc_without_a_framebuffer(struct context *context)
{
    return COMMIT(0, {PRIMARY, "CRTC_ID", CRTC});
}

static int lights_without_the_flag(struct context *context)
{
    return COMMIT(0, {CRTC, "ACTIVE", 1}, {CRTC, "MODE_ID", mode_blob(context)},
                  {CONNECTOR, "CRTC_ID", CRTC}, SHOWS(PRIMARY, CRTC, context->fb, SIDE));
}

static int active_without_a_mode(struct context *context)
{
    return COMMIT(MODESET, {CRTC, "ACTIVE", 1});
}

static int mode_without_a_connector(struct context *context)
{
    return COMMIT(MODESET, {CRTC, "ACTIVE", 1}, {CRTC, "MODE_ID", mode_blob(context)});
}

static int connector_without_a_mode(struct context *context)
{
    return COMMIT(MODESET, {CONNECTOR, "CRTC_ID", CRTC});
}

static int primary_plane_of_the_other_crtc(struct context *context)
{
    return COMMIT(0, SHOWS(PRIMARY, OTHER_CRTC, context->fb, SIDE));
}

static int event_of_a_dark_crtc(struct context *context)
{
    return COMMIT(DRM_MODE_PAGE_FLIP_EVENT, SHOWS(OVERLAY, CRTC, context->fb, SIDE));
}

static int source_outside_the_framebuffer(struct context *context)
{
    return COMMIT(0, SHOWS(OVERLAY, CRTC, context->fb, SIDE + 1));
}

static int overflow(struct context *context)
{
    return COMMIT(0, SHOWS(OVERLAY, CRTC, context->fb, SIDE), {OVERLAY, "CRTC_X", INT32_MAX});
}

static int two_connectors(struct context *context)
{
    return COMMIT(MODESET | TEST, {CRTC, "ACTIVE", 1}, {CRTC, "MODE_ID", mode_blob(context)},
                  {CONNECTOR, "CRTC_ID", CRTC}, {OTHER_CONNECTOR, "CRTC_ID", CRTC},
                  SHOWS(PRIMARY, CRTC, context->fb, SIDE));
}

static int lights(struct context *context)
{
    return COMMIT(MODESET, {CRTC, "ACTIVE", 1}, {CRTC, "MODE_ID", mode_blob(context)},
                  {CONNECTOR, "CRTC_ID", CRTC}, SHOWS(PRIMARY, CRTC, context->fb, SIDE));
}

static int another_mode_without_the_flag(struct context *context)
{
    return COMMIT(0, {CRTC, "ACTIVE", 0});
}

static int shows_an_overlay(struct context *context)
{
    return COMMIT(0, SHOWS(OVERLAY, CRTC, context->other_fb, SIDE));
}

static int moves_the_overlay_to_the_other_crtc(struct context *context)
{
    return COMMIT(0, {OVERLAY, "CRTC_ID", OTHER_CRTC});
}

static int flips(struct context *context)
{
    return COMMIT(DRM_MODE_ATOMIC_NONBLOCK | DRM_MODE_PAGE_FLIP_EVENT,
                  {PRIMARY, "FB_ID", context->other_fb});
}

static int flips_too_early(struct context *context)
{
    return COMMIT(DRM_MODE_ATOMIC_NONBLOCK, {PRIMARY, "FB_ID", context->fb});
}

static int tests_too_early(struct context *context)
{
    return COMMIT(DRM_MODE_ATOMIC_NONBLOCK | TEST, {PRIMARY, "FB_ID", context->fb});
}

static int darkens(struct context *context)
{
    return COMMIT(MODESET, {CRTC, "ACTIVE", 0}, {CRTC, "MODE_ID", 0}, {CONNECTOR, "CRTC_ID", 0},
                  {PRIMARY, "FB_ID", 0}, {PRIMARY, "CRTC_ID", 0}, {OVERLAY, "FB_ID", 0},
                  {OVERLAY, "CRTC_ID", 0});
}

const struct trial atomic_trials[] = {
    {"MODE_ATOMIC, without the capability", without_the_capability},
    {"SET_CLIENT_CAP ATOMIC, 1", turns_it_on},
    {"MODE_ATOMIC, not current", of_a_guest},
    {"MODE_ATOMIC, nothing", of_nothing},
    {"MODE_ATOMIC, nothing with an event", nothing_with_an_event},
    {"MODE_ATOMIC, other flags", other_flags},
    {"MODE_ATOMIC, PAGE_FLIP_ASYNC", at_once},
    {"MODE_ATOMIC, TEST_ONLY with an event", a_test_with_an_event},
    {"MODE_ATOMIC, no such object", no_such_object},
    {"MODE_ATOMIC, encoder", an_encoder},
    {"MODE_ATOMIC, no such property", no_such_property},
    {"MODE_ATOMIC, property of another object", property_of_another_object},
    {"MODE_ATOMIC, immutable property", immutable_property},
    {"MODE_ATOMIC, ACTIVE of 2", active_of_2},
    {"MODE_ATOMIC, no such mode", no_such_mode},
    {"MODE_ATOMIC, total below the sync", mode_below_the_sync},
    {"MODE_ATOMIC, clock above 31 bits", mode_with_a_high_clock},
    {"MODE_ATOMIC, aspect ratio", mode_with_an_aspect_ratio},
    {"MODE_ATOMIC, no such framebuffer", no_such_framebuffer},
    {"MODE_ATOMIC, no such CRTC", no_such_crtc},
    {"MODE_ATOMIC, OUT_FENCE_PTR of 0", out_fence},
    {"MODE_ATOMIC, OUT_FENCE_PTR at a wrong address", out_fence_at_a_wrong_address},
    {"MODE_ATOMIC, OUT_FENCE_PTR of a dark CRTC", out_fence_of_a_dark_crtc},
    {"MODE_ATOMIC, IN_FENCE_FD of -1", no_in_fence},
    {"MODE_ATOMIC, IN_FENCE_FD of a node", in_fence_of_a_node},
    {"MODE_ATOMIC, IN_FENCE_FD not open", in_fence_of_no_descriptor},
    {"MODE_ATOMIC, IN_FENCE_FD of -2", in_fence_below_the_range},
    {"MODE_ATOMIC, GAMMA_LUT of no blob", no_such_gamma},
    {"MODE_ATOMIC, GAMMA_LUT of another size", gamma_of_another_size},
    {"MODE_ATOMIC, GAMMA_LUT of 0", no_gamma},
    {"MODE_ATOMIC, GAMMA_LUT_SIZE", size_of_gamma},
    {"MODE_ATOMIC, FB_ID without CRTC_ID", framebuffer_without_a_crtc},
    {"MODE_ATOMIC, CRTC_ID without FB_ID", crtc_without_a_framebuffer},
    {"MODE_ATOMIC, lights without ALLOW_MODESET", lights_without_the_flag},
    {"MODE_ATOMIC, ACTIVE without a mode", active_without_a_mode},
    {"MODE_ATOMIC, mode without a connector", mode_without_a_connector},
    {"MODE_ATOMIC, connector without a mode", connector_without_a_mode},
    {"MODE_ATOMIC, primary plane of the other CRTC", primary_plane_of_the_other_crtc},
    {"MODE_ATOMIC, event of a dark CRTC", event_of_a_dark_crtc},
    {"MODE_ATOMIC, source outside the framebuffer", source_outside_the_framebuffer},
    {"MODE_ATOMIC, position that overflows", overflow},
    {"MODE_ATOMIC, two connectors", two_connectors},
    {"MODE_ATOMIC, lights", lights},
    {"MODE_ATOMIC, ACTIVE without ALLOW_MODESET", another_mode_without_the_flag},
    {"MODE_ATOMIC, shows an overlay", shows_an_overlay},
    {"MODE_ATOMIC, overlay moves to the other CRTC", moves_the_overlay_to_the_other_crtc},
    {"MODE_ATOMIC, NONBLOCK", flips},
    {"MODE_ATOMIC, NONBLOCK before that is complete", flips_too_early},
    {"MODE_ATOMIC, TEST_ONLY before that is complete", tests_too_early},
    {"MODE_ATOMIC, blocks until that is complete", of_nothing_that_blocks},
    {"MODE_ATOMIC, NONBLOCK with OUT_FENCE_PTR", flips_with_a_fence},
    {"MODE_ATOMIC, IN_FENCE_FD", in_fence},
    {"MODE_ATOMIC, two IN_FENCE_FD of a plane", two_in_fences},
    {"MODE_ATOMIC, blocks with IN_FENCE_FD", blocks_after_that},
    {"MODE_ATOMIC, darkens", darkens},
    {NULL, NULL},
};
