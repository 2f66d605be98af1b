/* Answers to requests of leases. */
#include "answers.h"

#include "ioctls.h"

/* The ids of leases of nothing are above those of the server. */
#define FIRST_OF_NOTHING 0x10000u

/* The server takes 32 ids at most; more are refused by it as a request that is none, as everywhere.
 */
static int create(struct connection *connection, const struct drm_mode_create_lease *create,
                  struct zirkoshe_lease *lease)
{
    uint32_t ids[ZIRKOSHE_MOST_ASKED], count = create->object_count;
    uint32_t read = count < ZIRKOSHE_MOST_ASKED ? count : ZIRKOSHE_MOST_ASKED;
    int failed;

    if (create->flags & ~(uint32_t)(O_CLOEXEC | O_NONBLOCK))
        return -EINVAL;
    failed = copy_from_caller(ids, create->object_ids, read * sizeof ids[0]);
    return failed ? failed : zirkoshe_drmModeCreateLease(&connection->client, ids, count, lease);
}

/* The node on which a lease is opened: the card, whose clients are not root. */
static enum node lessee_node(const struct connection *connection)
{
    return node_path(NODE_CARD) != NULL ? NODE_CARD : connection->node;
}

/* Lets the caller authenticate another client, which is closed if that fails. */
static int authenticate(struct connection *connection, struct connection *other)
{
    uint32_t magic = 0;
    int failed = zirkoshe_drmGetMagic(&other->client, &magic);

    if (!failed)
        failed = zirkoshe_drmAuthMagic(&connection->client, magic);
    if (failed)
        connection_close(other);
    return failed;
}

/* The server refuses a lease of nothing. Its descriptor is another client of the caller's master,
 * which the caller authenticates. Only a current caller may lease. */
static int lease_nothing(struct connection *connection, struct drm_mode_create_lease *asked)
{
    bool is_right = (asked->flags & ~(uint32_t)(O_CLOEXEC | O_NONBLOCK)) == 0;
    struct connection *opened;
    int failed = refuse_current(&connection->client, is_right ? 0 : -EINVAL);

    if (!failed)
        failed = connection_open(lessee_node(connection), false, 0, caller_process(), &opened);
    if (!failed)
        failed = authenticate(connection, opened);
    if (failed)
        return failed;
    asked->lessee_id = FIRST_OF_NOTHING + connection->leases_of_nothing++;
    outcome()->opened = opened;
    return 0;
}

/* The descriptor is a client that has redeemed the lease. A lease that can't be opened is taken
 * back. */
int answer_create_lease(struct connection *connection, void *argument)
{
    struct drm_mode_create_lease *asked = argument;
    struct connection *opened;
    struct zirkoshe_lease lease;
    int failed;

    if (asked->object_count == 0)
        return lease_nothing(connection, asked);
    failed = create(connection, asked, &lease);
    if (failed)
        return failed;
    failed = connection_open(lessee_node(connection), true, lease.token, caller_process(), &opened);
    if (failed) {
        zirkoshe_drmModeRevokeLease(&connection->client, lease.lessee_id);
        return failed;
    }
    asked->lessee_id = lease.lessee_id;
    outcome()->opened = opened;
    return 0;
}

int answer_list_lessees(struct connection *connection, void *argument)
{
    struct drm_mode_list_lessees *listed = argument;
    struct zirkoshe_ids lessees;
    int failed = zirkoshe_drmModeListLessees(&connection->client, &lessees);

    if (!failed && listed->pad != 0)
        failed = -EINVAL;
    return failed ? failed
                  : give(listed->lessees_ptr, &listed->count_lessees, lessees.ids, lessees.count,
                         sizeof lessees.ids[0]);
}

int answer_get_lease(struct connection *connection, void *argument)
{
    struct drm_mode_get_lease *leased = argument;
    struct zirkoshe_ids objects;
    int failed = zirkoshe_drmModeGetLease(&connection->client, &objects);

    if (!failed && leased->pad != 0)
        failed = -EINVAL;
    return failed ? failed
                  : give(leased->objects_ptr, &leased->count_objects, objects.ids, objects.count,
                         sizeof objects.ids[0]);
}

int answer_revoke_lease(struct connection *connection, void *argument)
{
    const struct drm_mode_revoke_lease *revoked = argument;

    if (revoked->lessee_id - FIRST_OF_NOTHING < connection->leases_of_nothing)
        return refuse_current(&connection->client, 0);
    standings_changed();
    return zirkoshe_drmModeRevokeLease(&connection->client, revoked->lessee_id);
}
