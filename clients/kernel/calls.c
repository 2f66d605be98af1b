// The calls whose fields and answers are at fixed places of their structures, as a table, and what
// all calls share.
#include "calls.h"

#include <drm.h>
#include <errno.h>
#include <stddef.h>
#include <stdio.h>
#include <string.h>
#include <sys/ioctl.h>

#include "driver_calls.h"

#define MOST_PLACES 5
#define MOST_BYTES 512

enum meaning {
    NOTHING,
    NUMBER,
    /* an id of a mode object or a framebuffer */
    OBJECT,
    /* an id that the kernel has just allocated */
    NEW_OBJECT,
    /* an id that is free once the call succeeded */
    OLD_OBJECT,
};

struct place {
    enum meaning meaning;
    unsigned offset;
    unsigned size;
};

struct simple_call {
    const char *word;
    unsigned long request;
    bool is_driver_call;
    struct place fields[MOST_PLACES];
    const char *answer;
    struct place answers[MOST_PLACES];
};

#define AT(meaning, type, member)                                                                  \
    {                                                                                              \
        meaning, offsetof(struct type, member), sizeof(((struct type *)0)->member)                 \
    }
#define WHOLE(meaning)                                                                             \
    {                                                                                              \
        meaning, 0, 4                                                                              \
    }

// a driver call of drm_script's own device: others use its number for something else
#define DRIVER_CALL true

static const struct simple_call simple_calls[] = {
    {"version",
     DRM_IOCTL_VERSION,
     false,
     {{0}},
     "version",
     {AT(NUMBER, drm_version, version_major), AT(NUMBER, drm_version, version_minor),
      AT(NUMBER, drm_version, version_patchlevel)}},
    {"get_magic", DRM_IOCTL_GET_MAGIC, false, {{0}}, "number", {AT(NUMBER, drm_auth, magic)}},
    {"auth_magic", DRM_IOCTL_AUTH_MAGIC, false, {AT(NUMBER, drm_auth, magic)}, "done", {{0}}},
    {"set_master", DRM_IOCTL_SET_MASTER, false, {{0}}, "done", {{0}}},
    {"drop_master", DRM_IOCTL_DROP_MASTER, false, {{0}}, "done", {{0}}},
    {"get_cap",
     DRM_IOCTL_GET_CAP,
     false,
     {AT(NUMBER, drm_get_cap, capability)},
     "number",
     {AT(NUMBER, drm_get_cap, value)}},
    {"set_client_cap",
     DRM_IOCTL_SET_CLIENT_CAP,
     false,
     {AT(NUMBER, drm_set_client_cap, capability), AT(NUMBER, drm_set_client_cap, value)},
     "done",
     {{0}}},
    {"gem_close", DRM_IOCTL_GEM_CLOSE, false, {AT(NUMBER, drm_gem_close, handle)}, "done", {{0}}},
    {"gem_flink",
     DRM_IOCTL_GEM_FLINK,
     false,
     {AT(NUMBER, drm_gem_flink, handle)},
     "number",
     {AT(NUMBER, drm_gem_flink, name)}},
    {"gem_open",
     DRM_IOCTL_GEM_OPEN,
     false,
     {AT(NUMBER, drm_gem_open, name)},
     "buffer",
     {AT(NUMBER, drm_gem_open, handle), AT(NUMBER, drm_gem_open, size)}},
    {"buf_create",
     DRM_IOCTL_ZIRKOSHE_BUF_CREATE,
     DRIVER_CALL,
     {AT(NUMBER, zirkoshe_buf_create, size)},
     "buffer",
     {AT(NUMBER, zirkoshe_buf_create, handle), AT(NUMBER, zirkoshe_buf_create, size)}},
    {"stamp_write",
     DRM_IOCTL_ZIRKOSHE_STAMP_WRITE,
     DRIVER_CALL,
     {AT(NUMBER, zirkoshe_stamp, handle), AT(NUMBER, zirkoshe_stamp, stamp)},
     "done",
     {{0}}},
    {"stamp_read",
     DRM_IOCTL_ZIRKOSHE_STAMP_READ,
     DRIVER_CALL,
     {AT(NUMBER, zirkoshe_stamp, handle)},
     "number",
     {AT(NUMBER, zirkoshe_stamp, stamp)}},
    {"create_dumb",
     DRM_IOCTL_MODE_CREATE_DUMB,
     false,
     {AT(NUMBER, drm_mode_create_dumb, width), AT(NUMBER, drm_mode_create_dumb, height),
      AT(NUMBER, drm_mode_create_dumb, bpp)},
     "dumb",
     {AT(NUMBER, drm_mode_create_dumb, handle), AT(NUMBER, drm_mode_create_dumb, pitch),
      AT(NUMBER, drm_mode_create_dumb, size)}},
    {"destroy_dumb",
     DRM_IOCTL_MODE_DESTROY_DUMB,
     false,
     {AT(NUMBER, drm_mode_destroy_dumb, handle)},
     "done",
     {{0}}},
    {"getcrtc",
     DRM_IOCTL_MODE_GETCRTC,
     false,
     {AT(OBJECT, drm_mode_crtc, crtc_id)},
     "number",
     {AT(OBJECT, drm_mode_crtc, fb_id)}},
    {"getencoder",
     DRM_IOCTL_MODE_GETENCODER,
     false,
     {AT(OBJECT, drm_mode_get_encoder, encoder_id)},
     "number",
     {AT(NUMBER, drm_mode_get_encoder, possible_crtcs)}},
    {"getplane",
     DRM_IOCTL_MODE_GETPLANE,
     false,
     {AT(OBJECT, drm_mode_get_plane, plane_id)},
     "plane",
     {AT(OBJECT, drm_mode_get_plane, fb_id), AT(NUMBER, drm_mode_get_plane, possible_crtcs)}},
    {"getfb",
     DRM_IOCTL_MODE_GETFB,
     false,
     {AT(OBJECT, drm_mode_fb_cmd, fb_id)},
     "framebuffer",
     {AT(NUMBER, drm_mode_fb_cmd, width), AT(NUMBER, drm_mode_fb_cmd, height),
      AT(NUMBER, drm_mode_fb_cmd, pitch), AT(NUMBER, drm_mode_fb_cmd, bpp),
      AT(NUMBER, drm_mode_fb_cmd, handle)}},
    {"rmfb", DRM_IOCTL_MODE_RMFB, false, {WHOLE(OLD_OBJECT)}, "done", {{0}}},
    {"revoke_lease",
     DRM_IOCTL_MODE_REVOKE_LEASE,
     false,
     {AT(NUMBER, drm_mode_revoke_lease, lessee_id)},
     "done",
     {{0}}},
};

#define SIMPLE_CALLS (sizeof(simple_calls) / sizeof(simple_calls[0]))

int make_ioctl(const struct caller *caller, unsigned long request, void *data)
{
    int result;

    do {
        result = ioctl(caller->file, request, data);
    } while (result != 0 && (errno == EINTR || errno == EAGAIN));
    return result;
}

static unsigned places_of(const struct place *places)
{
    unsigned count = 0;

    while (count < MOST_PLACES && places[count].meaning != NOTHING)
        count++;
    return count;
}

static void put(const struct session *session, const struct place *place, uint64_t value,
                unsigned char *data)
{
    uint32_t narrow = (uint32_t)value;

    if (place->meaning == OBJECT || place->meaning == OLD_OBJECT)
        narrow = kernel_object(session, narrow);
    if (place->size == 8)
        memcpy(data + place->offset, &value, 8);
    else
        memcpy(data + place->offset, &narrow, 4);
}

static uint64_t get(struct session *session, const struct place *place, const unsigned char *data)
{
    uint64_t wide = 0;

    memcpy(&wide, data + place->offset, place->size == 8 ? 8 : 4);
    if (place->meaning == OBJECT)
        return script_object(session, (uint32_t)wide);
    return wide;
}

static void free_objects(struct session *session, const struct simple_call *call,
                         const struct line *line)
{
    if (call->fields[0].meaning == OLD_OBJECT)
        unbind_number(&session->objects, (uint32_t)line->fields[0]);
}

static void make_simple_call(struct session *session, const struct simple_call *call,
                             const struct line *line, const struct caller *caller)
{
    _Alignas(8) unsigned char data[MOST_BYTES] = {0};
    unsigned i;

    for (i = 0; i < line->count; i++)
        put(session, &call->fields[i], line->fields[i], data);
    if (make_ioctl(caller, call->request, data) != 0) {
        answer_errno(session);
        return;
    }
    free_objects(session, call, line);
    answer(session, "%s", call->answer);
    for (i = 0; i < places_of(call->answers); i++)
        answer(session, " %llu", (unsigned long long)get(session, &call->answers[i], data));
}

static const struct simple_call *find_simple_call(const char *word)
{
    unsigned i;

    for (i = 0; i < SIMPLE_CALLS; i++) {
        if (strcmp(simple_calls[i].word, word) == 0)
            return &simple_calls[i];
    }
    return NULL;
}

static const struct special_call *find_special_call(const struct special_call *calls,
                                                    const char *word)
{
    while (calls->word && strcmp(calls->word, word) != 0)
        calls++;
    return calls->word ? calls : NULL;
}

void answer_numbers(struct session *session, const uint32_t *numbers, unsigned count)
{
    unsigned i;

    for (i = 0; i < count; i++)
        answer(session, "%s%u", i ? "," : " ", numbers[i]);
    if (count == 0)
        answer(session, " -");
}

void answer_objects(struct session *session, const uint32_t *ids, unsigned count)
{
    unsigned bound = 0, i;

    for (i = 0; i < count; i++) {
        uint32_t script;

        if (find_script_number(&session->objects, ids[i], &script))
            answer(session, "%s%u", bound++ ? "," : " ", script);
    }
    if (count == 0)
        answer(session, " -");
    else if (bound < count)
        answer(session, "%sother", bound ? "," : " ");
}

void make_call(struct session *session, const struct line *line, const struct caller *caller)
{
    const struct simple_call *simple = find_simple_call(line->word);
    const struct special_call *special = find_special_call(buffer_calls, line->word);

    if (!special)
        special = find_special_call(mode_calls, line->word);
    if (!special)
        special = find_special_call(lease_calls, line->word);
    if (simple && simple->is_driver_call && !session->device->has_driver_calls)
        answer(session, "left out: not a call of this driver");
    else if (simple && line->count == places_of(simple->fields))
        make_simple_call(session, simple, line, caller);
    else if (special && (special->count == line->count || special->count == UINT32_MAX))
        special->make(session, line, caller);
    else
        answer(session, "malformed");
}
