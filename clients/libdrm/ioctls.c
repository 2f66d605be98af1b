/* The table of requests, and the answering of one. */
#include "ioctls.h"

#include "answers.h"

#include <stdio.h>
#include <sys/ioctl.h>

/* What the core asks of the caller before a call that the server doesn't have; the server asks it
 * before its own. */
enum wants { WANTS_NOTHING, WANTS_PRIMARY, WANTS_MASTER };

struct row {
    uint32_t request;
    const char *name;
    answer *answer;
    enum wants wants;
    bool reads; /* it changes nothing that another request can see, or is done at once */
};

/* A row in the place of its request's number */
#define PLACED(name, answer, wants, reads)                                                         \
    [_IOC_NR(DRM_IOCTL_##name)] = {DRM_IOCTL_##name, #name, answer, wants, reads}
#define ROW(name, answer, wants) PLACED(name, answer, wants, false)
#define READING_ROW(name, answer, wants) PLACED(name, answer, wants, true)

static const struct row rows[] = {
    READING_ROW(VERSION, answer_version, WANTS_NOTHING),
    READING_ROW(GET_UNIQUE, answer_get_unique, WANTS_PRIMARY),
    ROW(GET_MAGIC, answer_get_magic, WANTS_NOTHING),
    READING_ROW(GET_CLIENT, answer_get_client, WANTS_PRIMARY),
    READING_ROW(GET_STATS, answer_nothing, WANTS_PRIMARY),
    ROW(SET_VERSION, answer_set_version, WANTS_MASTER),
    ROW(GEM_CLOSE, answer_gem_close, WANTS_NOTHING),
    ROW(GEM_FLINK, answer_gem_flink, WANTS_NOTHING),
    ROW(GEM_OPEN, answer_gem_open, WANTS_NOTHING),
    READING_ROW(GET_CAP, answer_get_cap, WANTS_NOTHING),
    ROW(SET_CLIENT_CAP, answer_set_client_cap, WANTS_NOTHING),
    ROW(AUTH_MAGIC, answer_auth_magic, WANTS_NOTHING),
    ROW(SET_MASTER, answer_set_master, WANTS_NOTHING),
    ROW(DROP_MASTER, answer_drop_master, WANTS_NOTHING),
    ROW(PRIME_HANDLE_TO_FD, answer_prime_export, WANTS_NOTHING),
    ROW(PRIME_FD_TO_HANDLE, answer_prime_import, WANTS_NOTHING),
    READING_ROW(WAIT_VBLANK, answer_wait_vblank, WANTS_PRIMARY),
    READING_ROW(CRTC_GET_SEQUENCE, answer_get_sequence, WANTS_PRIMARY),
    READING_ROW(CRTC_QUEUE_SEQUENCE, answer_queue_sequence, WANTS_PRIMARY),
    READING_ROW(MODE_GETRESOURCES, answer_get_resources, WANTS_NOTHING),
    READING_ROW(MODE_GETCRTC, answer_get_crtc, WANTS_NOTHING),
    ROW(MODE_SETCRTC, answer_set_crtc, WANTS_NOTHING),
    ROW(MODE_CURSOR, answer_cursor, WANTS_MASTER),
    READING_ROW(MODE_GETGAMMA, answer_get_gamma, WANTS_PRIMARY),
    ROW(MODE_SETGAMMA, answer_set_gamma, WANTS_MASTER),
    READING_ROW(MODE_GETENCODER, answer_get_encoder, WANTS_NOTHING),
    READING_ROW(MODE_GETCONNECTOR, answer_get_connector, WANTS_NOTHING),
    ROW(MODE_ATTACHMODE, answer_nothing, WANTS_MASTER),
    ROW(MODE_DETACHMODE, answer_nothing, WANTS_MASTER),
    READING_ROW(MODE_GETPROPERTY, answer_get_property, WANTS_PRIMARY),
    ROW(MODE_SETPROPERTY, answer_set_connector_property, WANTS_MASTER),
    READING_ROW(MODE_GETPROPBLOB, answer_get_blob, WANTS_PRIMARY),
    ROW(MODE_GETFB, answer_get_fb, WANTS_NOTHING),
    ROW(MODE_ADDFB, answer_add_fb, WANTS_NOTHING),
    ROW(MODE_RMFB, answer_rm_fb, WANTS_NOTHING),
    ROW(MODE_PAGE_FLIP, answer_page_flip, WANTS_PRIMARY),
    ROW(MODE_DIRTYFB, lacks_dirty, WANTS_MASTER),
    ROW(MODE_CREATE_DUMB, answer_create_dumb, WANTS_NOTHING),
    READING_ROW(MODE_MAP_DUMB, answer_map_dumb, WANTS_PRIMARY),
    ROW(MODE_DESTROY_DUMB, answer_destroy_dumb, WANTS_NOTHING),
    READING_ROW(MODE_GETPLANERESOURCES, answer_get_plane_resources, WANTS_NOTHING),
    READING_ROW(MODE_GETPLANE, answer_get_plane, WANTS_NOTHING),
    ROW(MODE_SETPLANE, answer_set_plane, WANTS_NOTHING),
    ROW(MODE_ADDFB2, answer_add_fb2, WANTS_PRIMARY),
    READING_ROW(MODE_OBJ_GETPROPERTIES, answer_get_object_properties, WANTS_PRIMARY),
    ROW(MODE_OBJ_SETPROPERTY, answer_set_object_property, WANTS_MASTER),
    ROW(MODE_CURSOR2, answer_cursor, WANTS_MASTER),
    ROW(MODE_ATOMIC, answer_atomic, WANTS_PRIMARY),
    ROW(MODE_CREATEPROPBLOB, answer_create_blob, WANTS_PRIMARY),
    ROW(MODE_DESTROYPROPBLOB, answer_destroy_blob, WANTS_PRIMARY),
    READING_ROW(SYNCOBJ_CREATE, answer_syncobj_create, WANTS_NOTHING),
    READING_ROW(SYNCOBJ_DESTROY, answer_syncobj_destroy, WANTS_NOTHING),
    READING_ROW(SYNCOBJ_HANDLE_TO_FD, answer_syncobj_export, WANTS_NOTHING),
    READING_ROW(SYNCOBJ_FD_TO_HANDLE, answer_syncobj_import, WANTS_NOTHING),
    READING_ROW(SYNCOBJ_WAIT, answer_syncobj_wait, WANTS_NOTHING),
    READING_ROW(SYNCOBJ_RESET, answer_syncobj_reset, WANTS_NOTHING),
    READING_ROW(SYNCOBJ_SIGNAL, answer_syncobj_signal, WANTS_NOTHING),
    READING_ROW(SYNCOBJ_TIMELINE_WAIT, answer_syncobj_timeline_wait, WANTS_NOTHING),
    READING_ROW(SYNCOBJ_QUERY, answer_syncobj_query, WANTS_NOTHING),
    READING_ROW(SYNCOBJ_TRANSFER, answer_syncobj_transfer, WANTS_NOTHING),
    READING_ROW(SYNCOBJ_TIMELINE_SIGNAL, answer_syncobj_timeline_signal, WANTS_NOTHING),
    READING_ROW(SYNCOBJ_EVENTFD, answer_syncobj_eventfd, WANTS_NOTHING),
    ROW(MODE_CREATE_LEASE, answer_create_lease, WANTS_NOTHING),
    READING_ROW(MODE_LIST_LESSEES, answer_list_lessees, WANTS_NOTHING),
    READING_ROW(MODE_GET_LEASE, answer_get_lease, WANTS_NOTHING),
    ROW(MODE_REVOKE_LEASE, answer_revoke_lease, WANTS_NOTHING),
    ROW(MODE_GETFB2, answer_get_fb2, WANTS_NOTHING),
};

/* The struct of a request, as large as the largest. */
union argument {
    struct drm_stats largest;
    max_align_t aligned;
};

static const struct row *row_of(uint32_t request)
{
    size_t at = _IOC_NR(request);

    return at < sizeof rows / sizeof rows[0] && rows[at].answer != NULL ? &rows[at] : NULL;
}

/* MODE_LIST_LESSEES changes nothing, and only a current caller may make it. */
int refuse_current(struct zirkoshe_client *client, int error)
{
    uint32_t rule = client->rule;
    struct zirkoshe_ids lessees;
    int denied = zirkoshe_drmModeListLessees(client, &lessees);

    if (denied)
        return denied;
    client->rule = rule;
    return error;
}

/* (A page flip asks by itself.) */
int permit_master(struct connection *connection)
{
    int failed;

    if (connection_is_current(connection))
        return 0;
    failed = refuse_current(&connection->client, 0);
    if (!failed)
        connection_is_found_current(connection);
    return failed;
}

static int ask(struct connection *connection, const struct row *row, void *argument)
{
    int failed;

    if (row->wants != WANTS_NOTHING && connection->node == NODE_RENDER)
        return -EACCES;
    failed = connection_hold(connection);
    if (failed)
        return failed;
    failed = row->wants == WANTS_MASTER ? permit_master(connection) : 0;
    if (!failed)
        failed = row->answer(connection, argument);
    return connection_let_go(connection, failed);
}

int trace_line(char *line, size_t room, int result)
{
    const char *name = outcome()->name;
    uint32_t rule = outcome()->rule;

    if (result == 0)
        return snprintf(line, room, "%s: done\n", name);
    if (rule != 0)
        return snprintf(line, room, "%s: denied %u %s %d\n", name, (unsigned)rule,
                        zirkoshe_rule_name(rule), -result);
    return snprintf(line, room, "%s: failed %d\n", name, -result);
}

bool is_reading(uint32_t request)
{
    const struct row *row = row_of(request);

    return row == NULL || row->reads;
}

static size_t least(size_t one, size_t other)
{
    return one < other ? one : other;
}

/* The core takes a struct that is shorter or longer than it knows: what is missing is 0, and what
 * is too much is left alone. */
int carry_out(struct connection *connection, uint32_t request, void *argument)
{
    const struct row *row = row_of(request);
    union argument held;
    size_t size;
    int failed;

    *outcome() = (struct outcome){.name = row == NULL ? "unknown request" : row->name};
    if (row == NULL)
        return -EINVAL;
    size = least(least(_IOC_SIZE(request), _IOC_SIZE(row->request)), sizeof held);
    memset(&held, 0, sizeof held);
    if (request & row->request & IOC_IN)
        memcpy(&held, argument, size);
    failed = ask(connection, row, &held);
    outcome()->rule = failed ? connection_refused_by() : 0;
    if (request & row->request & IOC_OUT)
        memcpy(argument, &held, size);
    return failed;
}
