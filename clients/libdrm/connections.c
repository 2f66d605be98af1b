/* The connections to the server: how they begin and end, and what is known of their callers. */
#include "connections.h"

#include "blobs.h"
#include "crtcs.h"
#include "framebuffers.h"
#include "late_commits.h"

#include <limits.h>
#include <stdlib.h>

/* How long a thread waits for another one before it looks again, in milliseconds */
#define PAUSE 10

static uint64_t last_cookie;
static uint32_t refused_by;
static unsigned standings_age = 1; /* from 1 */

static struct connection *make_connection(enum node node, pid_t opener)
{
    struct connection *connection = calloc(1, sizeof *connection);

    if (connection != NULL) {
        connection->node = node;
        connection->users = 1;
        connection->opener = opener;
        connection->cookie = ++last_cookie;
        connection->client.socket = -1;
        events_begin(&connection->events);
    }
    return connection;
}

/* Returns the errno of an opening that failed: that of a rule or of the socket file, or ENODEV
 * if no server answers. */
static int opening_error(const struct zirkoshe_client *client, int failed)
{
    switch (failed) {
    case -ENOENT:
    case -EACCES:
    case -EMFILE:
    case -ENFILE:
    case -ENOMEM:
        return failed;
    default:
        return client->rule == 0 ? -ENODEV : failed;
    }
}

int connection_open(enum node node, bool is_lease, uint32_t token, pid_t opener,
                    struct connection **opened)
{
    const char *path = node_path(node);
    struct connection *connection;
    int failed;

    if (path == NULL)
        return -ENODEV;
    connection = make_connection(node, opener);
    if (connection == NULL)
        return -ENOMEM;
    /* by version 2 universal planes are off until the program turns them on, as in a kernel */
    failed =
        zirkoshe_open_by(&connection->client, path, 2, is_lease ? 1 : 0, token, ZIRKOSHE_TIMEOUT);
    if (failed) {
        failed = opening_error(&connection->client, failed);
        events_end(&connection->events);
        free(connection);
        return failed;
    }
    connection->is_lessee = is_lease;
    *opened = connection;
    return 0;
}

void connection_use(struct connection *connection)
{
    connection->users++;
}

void connection_release(struct connection *connection)
{
    if (--connection->users > 0)
        return;
    zirkoshe_close(&connection->client);
    free(connection);
}

/* It is held by another thread if the server stalls, and then for long. */
static void take(struct connection *connection)
{
    while (connection->is_held)
        task_poll(NULL, 0, PAUSE);
    connection->is_held = true;
}

int connection_hold(struct connection *connection)
{
    take(connection);
    refused_by = 0;
    connection->client.rule = 0;
    if (connection->client.socket >= 0)
        return 0;
    connection->is_held = false;
    return -ENODEV;
}

bool connection_is_current(const struct connection *connection)
{
    return connection->known_at == standings_age;
}

void connection_is_found_current(struct connection *connection)
{
    if (!connection_is_current(connection))
        connection->known_crtc = 0;
    connection->known_at = standings_age;
}

unsigned standings_now(void)
{
    return standings_age;
}

void standings_changed(void)
{
    standings_age = standings_age < UINT_MAX ? standings_age + 1 : 1;
}

uint32_t connection_refused_by(void)
{
    return refused_by;
}

/* Returns the rule of the last refusal, if that is what failed. */
static uint32_t rule_of(const struct zirkoshe_client *client, int failed)
{
    const struct zirkoshe_rule *rule = failed ? zirkoshe_find_rule(client->rule) : NULL;

    return rule != NULL && rule->error == -failed ? rule->number : 0;
}

int connection_let_go(struct connection *connection, int failed)
{
    refused_by = rule_of(&connection->client, failed);
    if (failed)
        connection->known_at = 0;
    if (failed && connection->client.rule != 0)
        connection->topology_at = 0;
    connection->is_held = false;
    return connection->client.socket < 0 ? -ENODEV : failed;
}

void connection_close(struct connection *connection)
{
    take(connection);
    late_commits_end(connection);
    events_end(&connection->events);
    buffers_clear(connection);
    zirkoshe_disconnect(&connection->client);
    standings_changed();
    crtcs_are_unsure();
    framebuffers_end(connection);
    blobs_end(connection);
    syncobjs_end(connection);
    connection->is_held = false;
    connection_release(connection);
}
