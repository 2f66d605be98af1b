/* The connections to the server, one for each open file of a node. The display has all of them. */
#ifndef ZIRKOSHE_LIBDRM_CONNECTIONS_H
#define ZIRKOSHE_LIBDRM_CONNECTIONS_H

#include "libc.h"

#include <unistd.h>

#include "client.h"

#include "buffers.h"
#include "events.h"
#include "nodes.h"
#include "syncobjs.h"
#include "topologies.h"

struct connection {
    uint64_t cookie; /* unique */
    enum node node;
    unsigned users;             /* its file, and each thread that may use it */
    bool is_held;               /* by a thread that makes calls */
    pid_t opener;               /* the process that opened it */
    unsigned known_at;          /* the age of the standings at which the caller was current, or 0 */
    uint32_t known_crtc;        /* a CRTC that the caller saw then, or 0 */
    uint32_t leases_of_nothing; /* how many the caller made */
    bool is_lessee;             /* it was opened by a lease */
    bool is_atomic;             /* the program has the capability, */
    bool is_universal;          /* and this one: it sees all planes */
    bool has_aspect_ratios;     /* it may set and see those of modes */
    unsigned topology_at; /* the age of the standings at which the topology was asked for, or 0 */
    struct topology topology;
    struct buffers buffers;
    struct syncobjs syncobjs;
    struct events events;
    struct zirkoshe_client client;
};

/* Opens a node, or by a lease token, for a process. Returns 0, or a negative errno. */
int connection_open(enum node node, bool is_lease, uint32_t token, pid_t opener,
                    struct connection **opened);

/* Closes it: the server has closed its client afterwards. */
void connection_close(struct connection *connection);

/* Keeps it until connection_release. */
void connection_use(struct connection *connection);
void connection_release(struct connection *connection);

/* Holds the connection: no other thread makes calls by it. connection_hold returns 0, or -ENODEV if
 * the server is lost. */
int connection_hold(struct connection *connection);

/* Lets it go, and returns what the calls returned, or -ENODEV if the server is lost. */
int connection_let_go(struct connection *connection, int failed);

/* Returns the rule by which the server refused what was last let go, or 0 if the errno is not that
 * of the rule. */
uint32_t connection_refused_by(void);

/* Whether the server has said that the caller is current, and nothing since says otherwise: no
 * request can have changed it, and the server refused nothing. That a client of the server changed
 * it shows at the next refusal. */
bool connection_is_current(const struct connection *connection);

/* Notes that the server has said so. */
void connection_is_found_current(struct connection *connection);

/* Records that a request can have changed which caller is current, or what a caller sees; returns
 * the age of the standings. */
void standings_changed(void);
unsigned standings_now(void);

#endif
