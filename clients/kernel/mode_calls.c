// The calls of mode objects that have lists, a mode, or a size.
#include <drm.h>
#include <string.h>
#include <sys/ioctl.h>

#include "calls.h"

#define LISTED 256
#define SIDE 64

static void make_getresources(struct session *session, const struct line *line,
                              const struct caller *caller)
{
    static const char *const words[] = {"crtcs", " connectors", " encoders", " framebuffers"};
    uint32_t ids[4][LISTED];
    struct drm_mode_card_res all = {(uintptr_t)ids[3],
                                    (uintptr_t)ids[0],
                                    (uintptr_t)ids[1],
                                    (uintptr_t)ids[2],
                                    LISTED,
                                    LISTED,
                                    LISTED,
                                    LISTED,
                                    0,
                                    0,
                                    0,
                                    0};
    uint32_t counts[4];
    unsigned i;

    (void)line;
    if (make_ioctl(caller, DRM_IOCTL_MODE_GETRESOURCES, &all) != 0) {
        answer_errno(session);
        return;
    }
    counts[0] = all.count_crtcs;
    counts[1] = all.count_connectors;
    counts[2] = all.count_encoders;
    counts[3] = all.count_fbs;
    for (i = 0; i < 4; i++) {
        answer(session, "%s", words[i]);
        answer_objects(session, ids[i], counts[i]);
    }
}

static void make_getplaneresources(struct session *session, const struct line *line,
                                   const struct caller *caller)
{
    uint32_t ids[LISTED];
    struct drm_mode_get_plane_res all = {(uintptr_t)ids, LISTED};

    (void)line;
    if (make_ioctl(caller, DRM_IOCTL_MODE_GETPLANERESOURCES, &all) != 0) {
        answer_errno(session);
        return;
    }
    answer(session, "list");
    answer_objects(session, ids, all.count_planes);
}

// The answer is the first encoder of the connector. A count of modes keeps the kernel from looking
// for a monitor.
static void make_getconnector(struct session *session, const struct line *line,
                              const struct caller *caller)
{
    struct drm_mode_modeinfo mode;
    uint32_t encoders[LISTED] = {0};
    struct drm_mode_get_connector get = {
        .connector_id = kernel_object(session, (uint32_t)line->fields[0]),
        .encoders_ptr = (uintptr_t)encoders,
        .count_encoders = LISTED,
        .modes_ptr = (uintptr_t)&mode,
        .count_modes = 1,
    };

    if (make_ioctl(caller, DRM_IOCTL_MODE_GETCONNECTOR, &get) != 0)
        answer_errno(session);
    else
        answer(session, "number %u", script_object(session, encoders[0]));
}

// The size of a framebuffer that this script added, by the kernel's id.
static struct shape shape_of(const struct session *session, uint32_t id)
{
    unsigned i;

    for (i = session->shape_count; i > 0; i--) {
        if (session->shapes[i - 1].id == id)
            return session->shapes[i - 1];
    }
    return (struct shape){id, SIDE, SIDE};
}

// A mode that has the framebuffer's size and no blanking.
static struct drm_mode_modeinfo mode_of(struct shape shape)
{
    uint64_t pixels = (uint64_t)shape.width * shape.height;
    struct drm_mode_modeinfo mode = {0};

    mode.hdisplay = mode.hsync_start = mode.hsync_end = mode.htotal = (uint16_t)shape.width;
    mode.vdisplay = mode.vsync_start = mode.vsync_end = mode.vtotal = (uint16_t)shape.height;
    mode.clock = (uint32_t)(pixels * 60 / 1000) + 1;
    if (mode.clock > INT32_MAX)
        mode.clock = INT32_MAX;
    mode.vrefresh = 60;
    strcpy(mode.name, "script");
    return mode;
}

static void make_setcrtc(struct session *session, const struct line *line,
                         const struct caller *caller)
{
    uint32_t connector = kernel_object(session, (uint32_t)line->fields[2]);
    struct drm_mode_crtc set = {
        .crtc_id = kernel_object(session, (uint32_t)line->fields[0]),
        .fb_id = kernel_object(session, (uint32_t)line->fields[1]),
        .set_connectors_ptr = (uintptr_t)&connector,
        .count_connectors = connector ? 1 : 0,
    };

    if (set.fb_id) {
        set.mode_valid = 1;
        set.mode = mode_of(shape_of(session, set.fb_id));
    }
    if (make_ioctl(caller, DRM_IOCTL_MODE_SETCRTC, &set) != 0)
        answer_errno(session);
    else
        answer(session, "done");
}

static void make_setplane(struct session *session, const struct line *line,
                          const struct caller *caller)
{
    uint32_t id = kernel_object(session, (uint32_t)line->fields[2]);
    struct shape shape = shape_of(session, id);
    struct drm_mode_set_plane set = {
        .plane_id = kernel_object(session, (uint32_t)line->fields[0]),
        .crtc_id = kernel_object(session, (uint32_t)line->fields[1]),
        .fb_id = id,
        .crtc_w = shape.width,
        .crtc_h = shape.height,
        .src_w = shape.width << 16,
        .src_h = shape.height << 16,
    };

    if (make_ioctl(caller, DRM_IOCTL_MODE_SETPLANE, &set) != 0)
        answer_errno(session);
    else
        answer(session, "done");
}

// The usual depth of a framebuffer with these bits per pixel.
static uint32_t depth_of(uint32_t bits)
{
    return bits == 32 ? 24 : bits;
}

static void make_addfb(struct session *session, const struct line *line,
                       const struct caller *caller)
{
    uint32_t script = (uint32_t)expected_number(line, "number", 0);
    struct drm_mode_fb_cmd add = {
        .width = (uint32_t)line->fields[0],
        .height = (uint32_t)line->fields[1],
        .pitch = (uint32_t)line->fields[2],
        .bpp = (uint32_t)line->fields[3],
        .depth = depth_of((uint32_t)line->fields[3]),
        .handle = (uint32_t)line->fields[4],
    };

    if (make_ioctl(caller, DRM_IOCTL_MODE_ADDFB, &add) != 0) {
        answer_errno(session);
        return;
    }
    if (session->shape_count < MOST_SHAPES)
        session->shapes[session->shape_count++] = (struct shape){add.fb_id, add.width, add.height};
    answer(session, "number %u", bind_number(&session->objects, script, add.fb_id));
}

const struct special_call mode_calls[] = {
    {"getresources", 0, make_getresources},
    {"getplaneresources", 0, make_getplaneresources},
    {"getconnector", 1, make_getconnector},
    {"setcrtc", 3, make_setcrtc},
    {"setplane", 3, make_setplane},
    {"addfb", 5, make_addfb},
    {NULL, 0, NULL},
};
