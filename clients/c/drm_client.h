/* A client of drm_server: C99 or later and C++11 or later, POSIX sockets and threads, no
 * allocation. It needs the three headers next to it.
 *
 * A `struct zirkoshe_client` is one connection to one of the server's sockets. The functions have
 * the names of libdrm's with the prefix `zirkoshe_`. Calls without a libdrm function have
 * lower-case names. Each function returns 0 or a negative errno:
 *
 *   a refusal            the errno of the rule, whose number is then in `client->rule` (0 after
 *                        anything else), as ZIRKOSHE_RULE_LEASED_OUT. `zirkoshe_refused_by` returns
 *                        its name too. Numbers from 50 on are faults outside the rules
 *   -ETIMEDOUT           the server didn't answer within `client->timeout` milliseconds
 *   -ECONNRESET, -EPIPE  the server has closed the connection
 *   -EPROTO              the answer is malformed, is cut off, or is not of the call's kind
 *   -ENOTCONN            the connection was closed before
 *   -ECHILD              this process is a child (by fork) of the one that opened the client
 *   -EINVAL              with rule 0: more ids than one frame takes, or no path or an empty one
 *
 * After each of these except a refusal and the last two the connection is closed, because a late
 * answer could be taken for another call's. (-ETIMEDOUT of zirkoshe_wait_until_closed leaves it
 * open.) If a function fails, what its pointers refer to is unchanged.
 *
 * Threads may share a client. Calls run one after the other, and a call's time limit starts when
 * the calls before it have ended. `client->rule` is that of the last call of any thread. To read
 * that of its own call, a thread holds the client from the call on, by zirkoshe_lock and
 * zirkoshe_unlock. With glibc before 2.34, compile with -pthread.
 *
 * A strict ISO C mode (-std=c11) hides the system's monotonic clock if another header comes first
 * and _POSIX_C_SOURCE isn't defined. Time limits are then exact to 10 milliseconds only.
 * docs/FRAMES.md has the calls and the frames.
 */
#ifndef ZIRKOSHE_DRM_CLIENT_H
#define ZIRKOSHE_DRM_CLIENT_H

#include "drm_connection.h"

#define ZIRKOSHE_MOST_RESOURCES 251
#define ZIRKOSHE_MOST_ASKED 254

struct zirkoshe_version {
    uint32_t major_number, minor_number, patch;
};

struct zirkoshe_dumb {
    uint32_t handle, pitch;
    uint64_t size;
};

struct zirkoshe_buffer {
    uint32_t handle;
    uint64_t size;
};

struct zirkoshe_ids {
    uint32_t count;
    uint32_t ids[ZIRKOSHE_MOST_IDS];
};

/* Four lists with their lengths. A copy is independent of the original. */
struct zirkoshe_resources {
    uint32_t count_crtcs, count_connectors, count_encoders, count_fbs;
    uint32_t crtcs[ZIRKOSHE_MOST_RESOURCES];
    uint32_t connectors[ZIRKOSHE_MOST_RESOURCES];
    uint32_t encoders[ZIRKOSHE_MOST_RESOURCES];
    uint32_t fbs[ZIRKOSHE_MOST_RESOURCES];
};

struct zirkoshe_plane {
    uint32_t fb_id, possible_crtcs;
};

struct zirkoshe_fb {
    uint32_t width, height, pitch, bpp, handle;
};

struct zirkoshe_lease {
    uint32_t lessee_id, token;
};

struct zirkoshe_row {
    uint64_t a, b, c, d;
};

struct zirkoshe_rows {
    uint32_t count;
    struct zirkoshe_row rows[ZIRKOSHE_MOST_ROWS];
};

static inline int zirkoshe_done_of(struct zirkoshe_client *client, uint16_t number,
                                   const char *layout, uint64_t asked)
{
    return zirkoshe_call(client, number, layout, &asked, ZIRKOSHE_ANSWER_DONE, "", NULL);
}

/* A call of up to five fields whose answer is a number that is a u32. */
static inline int zirkoshe_u32_by(struct zirkoshe_client *client, uint16_t number,
                                  const char *layout, const uint64_t *values, uint32_t *value)
{
    uint64_t taken = 0;
    int failed = zirkoshe_call(client, number, layout, values, ZIRKOSHE_ANSWER_NUMBER, "N", &taken);

    if (!failed)
        *value = ZIRKOSHE_CAST(uint32_t, taken);
    return failed;
}

static inline int zirkoshe_u32_of(struct zirkoshe_client *client, uint16_t number,
                                  const char *layout, uint64_t asked, uint32_t *value)
{
    return zirkoshe_u32_by(client, number, layout, &asked, value);
}

static inline int zirkoshe_buffer_of(struct zirkoshe_client *client, uint16_t number,
                                     const char *layout, uint64_t asked,
                                     struct zirkoshe_buffer *buffer)
{
    uint64_t taken[2] = {0, 0};
    int failed = zirkoshe_call(client, number, layout, &asked, ZIRKOSHE_ANSWER_BUFFER, "IQ", taken);

    if (!failed) {
        buffer->handle = ZIRKOSHE_CAST(uint32_t, taken[0]);
        buffer->size = taken[1];
    }
    return failed;
}

static inline int zirkoshe_ids_of(struct zirkoshe_client *client, uint16_t number,
                                  const char *layout, uint64_t asked, struct zirkoshe_ids *ids)
{
    struct zirkoshe_frame frame;
    struct zirkoshe_fields fields;
    struct zirkoshe_ids taken;
    int failed;

    zirkoshe_write(&frame, number, layout, &asked);
    failed = zirkoshe_ask(client, &frame, ZIRKOSHE_ANSWER_LIST, &fields);
    if (failed)
        return failed;
    memset(&taken, 0, sizeof taken);
    taken.count = zirkoshe_take_ids(&fields, taken.ids, ZIRKOSHE_MOST_IDS);
    failed = zirkoshe_end(client, &fields);
    if (!failed)
        *ids = taken;
    return failed;
}

/* The calls of drm(7) and of kernel mode setting */

static inline int zirkoshe_drmGetVersion(struct zirkoshe_client *client,
                                         struct zirkoshe_version *version)
{
    uint64_t taken[3];
    int failed = zirkoshe_call(client, ZIRKOSHE_CALL_VERSION, "", NULL, ZIRKOSHE_ANSWER_VERSION,
                               "III", taken);

    if (!failed) {
        version->major_number = ZIRKOSHE_CAST(uint32_t, taken[0]);
        version->minor_number = ZIRKOSHE_CAST(uint32_t, taken[1]);
        version->patch = ZIRKOSHE_CAST(uint32_t, taken[2]);
    }
    return failed;
}

static inline int zirkoshe_drmGetMagic(struct zirkoshe_client *client, uint32_t *magic)
{
    return zirkoshe_u32_of(client, ZIRKOSHE_CALL_GET_MAGIC, "", 0, magic);
}

static inline int zirkoshe_drmAuthMagic(struct zirkoshe_client *client, uint32_t magic)
{
    return zirkoshe_done_of(client, ZIRKOSHE_CALL_AUTH_MAGIC, "I", magic);
}

static inline int zirkoshe_drmSetMaster(struct zirkoshe_client *client)
{
    return zirkoshe_done_of(client, ZIRKOSHE_CALL_SET_MASTER, "", 0);
}

static inline int zirkoshe_drmDropMaster(struct zirkoshe_client *client)
{
    return zirkoshe_done_of(client, ZIRKOSHE_CALL_DROP_MASTER, "", 0);
}

static inline int zirkoshe_drmGetCap(struct zirkoshe_client *client, uint64_t cap, uint64_t *value)
{
    return zirkoshe_call(client, ZIRKOSHE_CALL_GET_CAP, "Q", &cap, ZIRKOSHE_ANSWER_NUMBER, "Q",
                         value);
}

static inline int zirkoshe_drmSetClientCap(struct zirkoshe_client *client, uint64_t cap,
                                           uint64_t value)
{
    const uint64_t values[] = {cap, value};

    return zirkoshe_call(client, ZIRKOSHE_CALL_SET_CLIENT_CAP, "QQ", values, ZIRKOSHE_ANSWER_DONE,
                         "", NULL);
}

static inline int zirkoshe_drmCloseBufferHandle(struct zirkoshe_client *client, uint32_t handle)
{
    return zirkoshe_done_of(client, ZIRKOSHE_CALL_GEM_CLOSE, "I", handle);
}

/* A token represents the file descriptor. */
static inline int zirkoshe_drmPrimeHandleToFD(struct zirkoshe_client *client, uint32_t handle,
                                              uint32_t *token)
{
    return zirkoshe_u32_of(client, ZIRKOSHE_CALL_PRIME_HANDLE_TO_FD, "I", handle, token);
}

static inline int zirkoshe_drmPrimeFDToHandle(struct zirkoshe_client *client, uint32_t token,
                                              struct zirkoshe_buffer *buffer)
{
    return zirkoshe_buffer_of(client, ZIRKOSHE_CALL_PRIME_FD_TO_HANDLE, "I", token, buffer);
}

static inline int zirkoshe_drmModeGetResources(struct zirkoshe_client *client,
                                               struct zirkoshe_resources *resources)
{
    struct zirkoshe_frame frame;
    struct zirkoshe_fields fields;
    struct zirkoshe_resources taken;
    int failed;

    zirkoshe_write(&frame, ZIRKOSHE_CALL_MODE_GETRESOURCES, "", NULL);
    failed = zirkoshe_ask(client, &frame, ZIRKOSHE_ANSWER_RESOURCES, &fields);
    if (failed)
        return failed;
    memset(&taken, 0, sizeof taken);
    taken.count_crtcs = zirkoshe_take_ids(&fields, taken.crtcs, ZIRKOSHE_MOST_RESOURCES);
    taken.count_connectors = zirkoshe_take_ids(&fields, taken.connectors, ZIRKOSHE_MOST_RESOURCES);
    taken.count_encoders = zirkoshe_take_ids(&fields, taken.encoders, ZIRKOSHE_MOST_RESOURCES);
    taken.count_fbs = zirkoshe_take_ids(&fields, taken.fbs, ZIRKOSHE_MOST_RESOURCES);
    failed = zirkoshe_end(client, &fields);
    if (!failed)
        *resources = taken;
    return failed;
}

static inline int zirkoshe_drmModeGetPlaneResources(struct zirkoshe_client *client,
                                                    struct zirkoshe_ids *planes)
{
    return zirkoshe_ids_of(client, ZIRKOSHE_CALL_MODE_GETPLANERESOURCES, "", 0, planes);
}

/* The framebuffer that the CRTC shows, or 0. */
static inline int zirkoshe_drmModeGetCrtc(struct zirkoshe_client *client, uint32_t crtc_id,
                                          uint32_t *fb_id)
{
    return zirkoshe_u32_of(client, ZIRKOSHE_CALL_MODE_GETCRTC, "I", crtc_id, fb_id);
}

static inline int zirkoshe_drmModeSetCrtc(struct zirkoshe_client *client, uint32_t crtc_id,
                                          uint32_t fb_id, uint32_t connector_id)
{
    const uint64_t values[] = {crtc_id, fb_id, connector_id};

    return zirkoshe_call(client, ZIRKOSHE_CALL_MODE_SETCRTC, "III", values, ZIRKOSHE_ANSWER_DONE,
                         "", NULL);
}

/* The mask of the CRTCs that can drive it, over those that the client sees. */
static inline int zirkoshe_drmModeGetEncoder(struct zirkoshe_client *client, uint32_t encoder_id,
                                             uint32_t *possible_crtcs)
{
    return zirkoshe_u32_of(client, ZIRKOSHE_CALL_MODE_GETENCODER, "I", encoder_id, possible_crtcs);
}

static inline int zirkoshe_drmModeGetConnector(struct zirkoshe_client *client,
                                               uint32_t connector_id, uint32_t *encoder_id)
{
    return zirkoshe_u32_of(client, ZIRKOSHE_CALL_MODE_GETCONNECTOR, "I", connector_id, encoder_id);
}

static inline int zirkoshe_drmModeGetPlane(struct zirkoshe_client *client, uint32_t plane_id,
                                           struct zirkoshe_plane *plane)
{
    const uint64_t values[] = {plane_id};
    uint64_t taken[2];
    int failed = zirkoshe_call(client, ZIRKOSHE_CALL_MODE_GETPLANE, "I", values,
                               ZIRKOSHE_ANSWER_PLANE, "II", taken);

    if (!failed) {
        plane->fb_id = ZIRKOSHE_CAST(uint32_t, taken[0]);
        plane->possible_crtcs = ZIRKOSHE_CAST(uint32_t, taken[1]);
    }
    return failed;
}

static inline int zirkoshe_drmModeSetPlane(struct zirkoshe_client *client, uint32_t plane_id,
                                           uint32_t crtc_id, uint32_t fb_id)
{
    const uint64_t values[] = {plane_id, crtc_id, fb_id};

    return zirkoshe_call(client, ZIRKOSHE_CALL_MODE_SETPLANE, "III", values, ZIRKOSHE_ANSWER_DONE,
                         "", NULL);
}

static inline int zirkoshe_drmModeGetFB(struct zirkoshe_client *client, uint32_t fb_id,
                                        struct zirkoshe_fb *fb)
{
    const uint64_t values[] = {fb_id};
    uint64_t taken[5];
    int failed = zirkoshe_call(client, ZIRKOSHE_CALL_MODE_GETFB, "I", values,
                               ZIRKOSHE_ANSWER_FRAMEBUFFER, "IIIII", taken);

    if (!failed) {
        fb->width = ZIRKOSHE_CAST(uint32_t, taken[0]);
        fb->height = ZIRKOSHE_CAST(uint32_t, taken[1]);
        fb->pitch = ZIRKOSHE_CAST(uint32_t, taken[2]);
        fb->bpp = ZIRKOSHE_CAST(uint32_t, taken[3]);
        fb->handle = ZIRKOSHE_CAST(uint32_t, taken[4]);
    }
    return failed;
}

static inline int zirkoshe_drmModeAddFB(struct zirkoshe_client *client, uint32_t width,
                                        uint32_t height, uint32_t pitch, uint32_t bpp,
                                        uint32_t handle, uint32_t *fb_id)
{
    const uint64_t values[] = {width, height, pitch, bpp, handle};

    return zirkoshe_u32_by(client, ZIRKOSHE_CALL_MODE_ADDFB, "IIIII", values, fb_id);
}

static inline int zirkoshe_drmModeRmFB(struct zirkoshe_client *client, uint32_t fb_id)
{
    return zirkoshe_done_of(client, ZIRKOSHE_CALL_MODE_RMFB, "I", fb_id);
}

static inline int zirkoshe_drmModeCreateDumbBuffer(struct zirkoshe_client *client, uint32_t width,
                                                   uint32_t height, uint32_t bpp,
                                                   struct zirkoshe_dumb *dumb)
{
    const uint64_t values[] = {width, height, bpp};
    uint64_t taken[3];
    int failed = zirkoshe_call(client, ZIRKOSHE_CALL_MODE_CREATE_DUMB, "III", values,
                               ZIRKOSHE_ANSWER_DUMB, "IIQ", taken);

    if (!failed) {
        dumb->handle = ZIRKOSHE_CAST(uint32_t, taken[0]);
        dumb->pitch = ZIRKOSHE_CAST(uint32_t, taken[1]);
        dumb->size = taken[2];
    }
    return failed;
}

static inline int zirkoshe_drmModeDestroyDumbBuffer(struct zirkoshe_client *client, uint32_t handle)
{
    return zirkoshe_done_of(client, ZIRKOSHE_CALL_MODE_DESTROY_DUMB, "I", handle);
}

/* A lease of these CRTCs, planes and connectors. Rule 2 denies more than 32 ids, and no frame takes
 * more than 254. */
static inline int zirkoshe_drmModeCreateLease(struct zirkoshe_client *client, const uint32_t *ids,
                                              uint32_t count, struct zirkoshe_lease *lease)
{
    struct zirkoshe_frame frame;
    struct zirkoshe_fields fields;
    struct zirkoshe_lease taken;
    const uint64_t value = count;
    uint32_t at;
    int failed;

    if (count > ZIRKOSHE_MOST_ASKED)
        return zirkoshe_refuse_to_ask(client);
    zirkoshe_write(&frame, ZIRKOSHE_CALL_MODE_CREATE_LEASE, "I", &value);
    for (at = 0; at < count; at++)
        zirkoshe_put(&frame, 4, ids[at]);
    failed = zirkoshe_ask(client, &frame, ZIRKOSHE_ANSWER_LEASE, &fields);
    if (failed)
        return failed;
    taken.lessee_id = zirkoshe_take_u32(&fields);
    taken.token = zirkoshe_take_u32(&fields);
    failed = zirkoshe_end(client, &fields);
    if (!failed)
        *lease = taken;
    return failed;
}

static inline int zirkoshe_drmModeListLessees(struct zirkoshe_client *client,
                                              struct zirkoshe_ids *lessee_ids)
{
    return zirkoshe_ids_of(client, ZIRKOSHE_CALL_MODE_LIST_LESSEES, "", 0, lessee_ids);
}

static inline int zirkoshe_drmModeGetLease(struct zirkoshe_client *client, struct zirkoshe_ids *ids)
{
    return zirkoshe_ids_of(client, ZIRKOSHE_CALL_MODE_GET_LEASE, "", 0, ids);
}

static inline int zirkoshe_drmModeRevokeLease(struct zirkoshe_client *client, uint32_t lessee_id)
{
    return zirkoshe_done_of(client, ZIRKOSHE_CALL_MODE_REVOKE_LEASE, "I", lessee_id);
}

/* The calls without a libdrm function */

static inline int zirkoshe_gem_flink(struct zirkoshe_client *client, uint32_t handle,
                                     uint32_t *name)
{
    return zirkoshe_u32_of(client, ZIRKOSHE_CALL_GEM_FLINK, "I", handle, name);
}

static inline int zirkoshe_gem_open(struct zirkoshe_client *client, uint32_t name,
                                    struct zirkoshe_buffer *buffer)
{
    return zirkoshe_buffer_of(client, ZIRKOSHE_CALL_GEM_OPEN, "I", name, buffer);
}

static inline int zirkoshe_buf_create(struct zirkoshe_client *client, uint64_t size,
                                      struct zirkoshe_buffer *buffer)
{
    return zirkoshe_buffer_of(client, ZIRKOSHE_CALL_BUF_CREATE, "Q", size, buffer);
}

static inline int zirkoshe_stamp_write(struct zirkoshe_client *client, uint32_t handle,
                                       uint64_t stamp)
{
    const uint64_t values[] = {handle, stamp};

    return zirkoshe_call(client, ZIRKOSHE_CALL_STAMP_WRITE, "IQ", values, ZIRKOSHE_ANSWER_DONE, "",
                         NULL);
}

static inline int zirkoshe_stamp_read(struct zirkoshe_client *client, uint32_t handle,
                                      uint64_t *stamp)
{
    const uint64_t asked = handle;

    return zirkoshe_call(client, ZIRKOSHE_CALL_STAMP_READ, "I", &asked, ZIRKOSHE_ANSWER_NUMBER, "Q",
                         stamp);
}

static inline int zirkoshe_token_close(struct zirkoshe_client *client, uint32_t token)
{
    return zirkoshe_done_of(client, ZIRKOSHE_CALL_TOKEN_CLOSE, "I", token);
}

/* The first 64 handles that are not below `least`. */
static inline int zirkoshe_list_handles(struct zirkoshe_client *client, uint32_t least,
                                        struct zirkoshe_ids *handles)
{
    return zirkoshe_ids_of(client, ZIRKOSHE_CALL_LIST_HANDLES, "I", least, handles);
}

/* Up to 16 rows of this kind, 1 to 10, after the first `skipped`. Only a root client may ask. */
static inline int zirkoshe_audit(struct zirkoshe_client *client, uint32_t kind, uint32_t skipped,
                                 struct zirkoshe_rows *rows)
{
    const uint64_t values[] = {kind, skipped};
    struct zirkoshe_frame frame;
    struct zirkoshe_fields fields;
    struct zirkoshe_rows taken;
    uint32_t at;
    int failed;

    zirkoshe_write(&frame, ZIRKOSHE_CALL_AUDIT, "II", values);
    failed = zirkoshe_ask(client, &frame, ZIRKOSHE_ANSWER_AUDIT, &fields);
    if (failed)
        return failed;
    memset(&taken, 0, sizeof taken);
    taken.count = zirkoshe_take_u32(&fields);
    if (taken.count > ZIRKOSHE_MOST_ROWS)
        fields.is_wrong = true;
    for (at = 0; at < taken.count && !fields.is_wrong; at++) {
        taken.rows[at].a = zirkoshe_take(&fields, 8);
        taken.rows[at].b = zirkoshe_take(&fields, 8);
        taken.rows[at].c = zirkoshe_take(&fields, 8);
        taken.rows[at].d = zirkoshe_take(&fields, 8);
    }
    failed = zirkoshe_end(client, &fields);
    if (!failed)
        *rows = taken;
    return failed;
}

/* Waiting for the end of other clients */

/* Whether the client with this number is open. Only a root client may ask. Each of its audits is a
 * step. */
static inline int zirkoshe_is_open(struct zirkoshe_client *root, uint32_t number, bool *is_open)
{
    uint32_t skipped = 0;

    for (;;) {
        struct zirkoshe_rows page;
        bool begins_before;
        uint32_t at;
        int failed = zirkoshe_audit(root, ZIRKOSHE_AUDIT_CLIENT, skipped, &page);

        if (failed)
            return failed;
        for (at = 0; at < page.count && page.rows[at].a != number; at++)
            ;
        *is_open = at < page.count;
        /* numbers rise, and clients that close meanwhile move those after them forward */
        begins_before = skipped == 0 || (page.count > 0 && page.rows[0].a < number);
        if (*is_open
            || (begins_before
                && (page.count < ZIRKOSHE_MOST_ROWS || page.rows[page.count - 1].a > number)))
            return 0;
        skipped = begins_before ? skipped + ZIRKOSHE_MOST_ROWS - 1 : 0;
    }
}

/* Waits until the server has closed the client with this number. Only a root client may ask. The
 * server notices after a moment that a client was killed, and an opening before that finds what the
 * client had. If the client is still open at the end of the time limit, this returns -ETIMEDOUT,
 * and the root client's connection stays open. */
static inline int zirkoshe_wait_until_closed(struct zirkoshe_client *root, uint32_t number)
{
    int64_t until = zirkoshe_now() + root->timeout;
    bool is_open = true;
    int waited = 1;

    for (;;) {
        int failed = zirkoshe_is_open(root, number, &is_open);

        if (failed || !is_open)
            return failed;
        if (zirkoshe_now() >= until)
            return -ETIMEDOUT;
        poll(NULL, 0, waited);
        waited = waited < 32 ? 2 * waited : 50;
    }
}

#endif
