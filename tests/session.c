/* Sessions of the C client, each call with its answer in a script's words: over card, render, root
 * and a lease, where each call is made once, and over the card alone by both hellos. */
#include "drm_client.h"

#include <inttypes.h>
#include <stdarg.h>
#include <stdio.h>
#include <stdlib.h>

/* Prints the answer, or what came in its place. */
static void tell(const struct zirkoshe_client *client, int failed, const char *format, ...)
{
    va_list values;

    va_start(values, format);
    if (failed && client->rule)
        printf("%s %" PRIu32 " %s %d", client->rule < 50 ? "denied" : "apart", client->rule,
               zirkoshe_rule_name(client->rule), -failed);
    else if (failed)
        printf("error %s", strerror(-failed));
    else
        vprintf(format, values);
    va_end(values);
    printf("\n");
}

static void tell_ids(const char *name, uint32_t count, const uint32_t *ids)
{
    uint32_t at;

    printf("%s %s", name, count ? "" : "-");
    for (at = 0; at < count; at++)
        printf(at ? ",%" PRIu32 : "%" PRIu32, ids[at]);
}

static void tell_list(const struct zirkoshe_client *client, int failed,
                      const struct zirkoshe_ids *list)
{
    if (!failed)
        tell_ids("list", list->count, list->ids);
    tell(client, failed, "");
}

static void tell_resources(const struct zirkoshe_client *client, int failed,
                           const struct zirkoshe_resources *found)
{
    if (!failed) {
        tell_ids("crtcs", found->count_crtcs, found->crtcs);
        tell_ids(" connectors", found->count_connectors, found->connectors);
        tell_ids(" encoders", found->count_encoders, found->encoders);
        tell_ids(" framebuffers", found->count_fbs, found->fbs);
    }
    tell(client, failed, "");
}

static void tell_rows(const struct zirkoshe_client *client, int failed,
                      const struct zirkoshe_rows *found)
{
    uint32_t at;

    if (!failed) {
        printf("rows %" PRIu32, found->count);
        for (at = 0; at < found->count; at++)
            printf(" | %" PRIu64 " %" PRIu64 " %" PRIu64 " %" PRIu64, found->rows[at].a,
                   found->rows[at].b, found->rows[at].c, found->rows[at].d);
    }
    tell(client, failed, "");
}

#define TELL(TYPE, FORMAT, CALL)                                                                   \
    do {                                                                                           \
        TYPE number = 0;                                                                           \
        int result = CALL;                                                                         \
        tell(client, result, FORMAT, number);                                                      \
    } while (0)
#define DONE(CALL) tell(client, CALL, "done")
#define NUMBER(CALL) TELL(uint32_t, "number %" PRIu32, CALL)
#define NUMBER64(CALL) TELL(uint64_t, "number %" PRIu64, CALL)
#define LIST(CALL)                                                                                 \
    do {                                                                                           \
        struct zirkoshe_ids list;                                                                  \
        int result = CALL;                                                                         \
        tell_list(client, result, &list);                                                          \
    } while (0)
#define BUFFER(CALL)                                                                               \
    do {                                                                                           \
        struct zirkoshe_buffer buffer = {0, 0};                                                    \
        int result = CALL;                                                                         \
        tell(client, result, "buffer %" PRIu32 " %" PRIu64, buffer.handle, buffer.size);           \
    } while (0)

static void tell_dumb(struct zirkoshe_client *client)
{
    struct zirkoshe_dumb dumb = {0, 0, 0};
    int failed = zirkoshe_drmModeCreateDumbBuffer(client, 64, 64, 32, &dumb);

    tell(client, failed, "dumb %" PRIu32 " %" PRIu32 " %" PRIu64, dumb.handle, dumb.pitch,
         dumb.size);
}

static void tell_lease(struct zirkoshe_client *client, const uint32_t *ids, uint32_t count)
{
    struct zirkoshe_lease lease = {0, 0};
    int failed = zirkoshe_drmModeCreateLease(client, ids, count, &lease);

    tell(client, failed, "lease %" PRIu32 " %" PRIu32, lease.lessee_id, lease.token);
}

static void tell_grants(struct zirkoshe_client *client)
{
    struct zirkoshe_rows rows;
    int failed = zirkoshe_audit(client, 7, 0, &rows);

    tell_rows(client, failed, &rows);
}

static void tell_all_resources(struct zirkoshe_client *client)
{
    struct zirkoshe_resources resources, copy;
    int failed = zirkoshe_drmModeGetResources(client, &resources);

    copy = resources;
    memset(&resources, 0, sizeof resources); /* a copy does not refer to the original */
    tell_resources(client, failed, &copy);
}

static void make_buffers(struct zirkoshe_client *client)
{
    struct zirkoshe_version version = {0, 0, 0};
    int failed = zirkoshe_drmGetVersion(client, &version);

    tell(client, failed, "version %" PRIu32 " %" PRIu32 " %" PRIu32, version.major_number,
         version.minor_number, version.patch);
    NUMBER64(zirkoshe_drmGetCap(client, 5, &number));
    DONE(zirkoshe_drmSetClientCap(client, 2, 1));
    tell_dumb(client);
    BUFFER(zirkoshe_buf_create(client, 5000, &buffer));
    LIST(zirkoshe_list_handles(client, 0, &list));
    DONE(zirkoshe_drmCloseBufferHandle(client, 2));
}

static void tell_plane(struct zirkoshe_client *client)
{
    struct zirkoshe_plane plane = {0, 0};
    int failed = zirkoshe_drmModeGetPlane(client, 3, &plane);

    tell(client, failed, "plane %" PRIu32 " %" PRIu32, plane.fb_id, plane.possible_crtcs);
}

static void show(struct zirkoshe_client *client)
{
    struct zirkoshe_fb fb = {0, 0, 0, 0, 0};
    int failed;

    NUMBER(zirkoshe_drmModeAddFB(client, 64, 64, 256, 32, 1, &number));
    DONE(zirkoshe_drmModeSetCrtc(client, 1, 9, 7));
    DONE(zirkoshe_drmModeSetPlane(client, 3, 1, 9));
    NUMBER(zirkoshe_drmModeGetCrtc(client, 1, &number));
    tell_plane(client);
    failed = zirkoshe_drmModeGetFB(client, 9, &fb);
    tell(client, failed, "framebuffer %" PRIu32 " %" PRIu32 " %" PRIu32 " %" PRIu32 " %" PRIu32,
         fb.width, fb.height, fb.pitch, fb.bpp, fb.handle);
    DONE(zirkoshe_drmModeDestroyDumbBuffer(client, 2));
    tell_all_resources(client);
    LIST(zirkoshe_drmModeGetPlaneResources(client, &list));
    NUMBER(zirkoshe_drmModeGetEncoder(client, 6, &number));
    NUMBER(zirkoshe_drmModeGetConnector(client, 7, &number));
    NUMBER(zirkoshe_gem_flink(client, 1, &number));
    NUMBER(zirkoshe_drmPrimeHandleToFD(client, 1, &number));
}

static void open_node(struct zirkoshe_client *client, const char *path)
{
    int failed = zirkoshe_open1(client, path, ZIRKOSHE_TIMEOUT);

    tell(client, failed, "client %" PRIu32, client->number);
}

static void open_lease(struct zirkoshe_client *client, const char *path)
{
    int failed = zirkoshe_open1_lease(client, path, 1, ZIRKOSHE_TIMEOUT);

    tell(client, failed, "client %" PRIu32, client->number);
}

static void share(struct zirkoshe_client *owner, struct zirkoshe_client *render, const char *path)
{
    struct zirkoshe_client *client = render;

    open_node(render, path);
    BUFFER(zirkoshe_drmPrimeFDToHandle(render, 1, &buffer));
    DONE(zirkoshe_stamp_write(render, 1, 77));
    client = owner;
    NUMBER64(zirkoshe_stamp_read(owner, 1, &number));
    tell_dumb(render);
}

static void authenticate(struct zirkoshe_client *owner, struct zirkoshe_client *root,
                         const char *path)
{
    struct zirkoshe_client *client = root;

    open_node(root, path);
    NUMBER(zirkoshe_drmGetMagic(root, &number));
    client = owner;
    DONE(zirkoshe_drmAuthMagic(owner, 1));
    DONE(zirkoshe_drmAuthMagic(owner, 1));
    client = root;
    BUFFER(zirkoshe_gem_open(root, 1, &buffer));
    DONE(zirkoshe_drmSetMaster(root));
}

static void lend(struct zirkoshe_client *owner, struct zirkoshe_client *lessee,
                 struct zirkoshe_client *root, const char *path)
{
    const uint32_t ids[] = {2, 4, 8}, leased[] = {2, 3, 8};
    struct zirkoshe_client late;
    struct zirkoshe_client *client = lessee;

    tell_lease(owner, ids, 3);
    open_lease(lessee, path);
    open_lease(&late, path);
    tell_all_resources(lessee);
    DONE(zirkoshe_drmModeSetCrtc(lessee, 1, 9, 7));
    LIST(zirkoshe_drmModeGetLease(lessee, &list));
    tell_lease(owner, leased, 3);
    client = owner;
    LIST(zirkoshe_drmModeListLessees(owner, &list));
    tell_grants(root);
    tell_grants(owner);
    DONE(zirkoshe_drmModeRevokeLease(owner, 1));
    client = lessee;
    LIST(zirkoshe_drmModeGetLease(lessee, &list));
}

static void end(struct zirkoshe_client *owner, struct zirkoshe_client *render)
{
    struct zirkoshe_client *client = owner;

    DONE(zirkoshe_token_close(owner, 1));
    client = render;
    BUFFER(zirkoshe_drmPrimeFDToHandle(render, 1, &buffer));
    client = owner;
    DONE(zirkoshe_drmModeRmFB(owner, 9));
    DONE(zirkoshe_drmDropMaster(owner));
    DONE(zirkoshe_drmSetMaster(owner));
}

static int make_session(const char *card_path, const char *render_path, const char *root_path)
{
    struct zirkoshe_client owner, render, root, lessee;

    open_node(&owner, card_path);
    make_buffers(&owner);
    show(&owner);
    share(&owner, &render, render_path);
    authenticate(&owner, &root, root_path);
    lend(&owner, &lessee, &root, card_path);
    end(&owner, &render);
    return zirkoshe_close(&lessee) | zirkoshe_close(&render) | zirkoshe_close(&root)
           | zirkoshe_close(&owner);
}

static void see_planes(struct zirkoshe_client *client)
{
    LIST(zirkoshe_drmModeGetPlaneResources(client, &list));
    tell_plane(client);
}

static void switch_planes(struct zirkoshe_client *client, uint64_t is_on)
{
    DONE(zirkoshe_drmSetClientCap(client, 2, is_on));
    see_planes(client);
}

static void open_by_hello_2(struct zirkoshe_client *client, const char *path)
{
    int failed = zirkoshe_open(client, path, ZIRKOSHE_TIMEOUT);

    tell(client, failed, "client %" PRIu32, client->number);
}

static void lend_with_planes_off(struct zirkoshe_client *owner, struct zirkoshe_client *lessee,
                                 const char *path)
{
    const uint32_t ids[] = {1, 7};
    struct zirkoshe_client *client = lessee;
    int failed;

    tell_lease(owner, ids, 2);
    failed = zirkoshe_open_lease(lessee, path, 1, ZIRKOSHE_TIMEOUT);
    tell(lessee, failed, "client %" PRIu32, lessee->number);
    LIST(zirkoshe_drmModeGetLease(lessee, &list));
    see_planes(lessee);
    switch_planes(lessee, 1);
}

/* A client of each hello on one server. */
static int make_planes_session(const char *path)
{
    struct zirkoshe_client old, new, lessee;

    open_node(&old, path);
    open_by_hello_2(&new, path);
    see_planes(&old);
    see_planes(&new);
    switch_planes(&new, 1);
    switch_planes(&old, 0);
    lend_with_planes_off(&old, &lessee, path);
    return zirkoshe_close(&old) | zirkoshe_close(&new) | zirkoshe_close(&lessee);
}

/* A connection with this time limit in milliseconds: what it gives is printed. */
static int try_opening(const char *path, int timeout)
{
    struct zirkoshe_client client;
    int failed = zirkoshe_open(&client, path, timeout);

    tell(&client, failed, "client %" PRIu32, client.number);
    return failed ? 1 : zirkoshe_close(&client);
}

int main(int count, char **words)
{
    switch (count) {
    case 2:
        return make_planes_session(words[1]) ? 1 : 0;
    case 3:
        return try_opening(words[1], atoi(words[2]));
    case 4:
        return make_session(words[1], words[2], words[3]) ? 1 : 0;
    default:
        return 2;
    }
}
