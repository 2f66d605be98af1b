/* The mode objects of a device as one client sees them. */
#include "topologies.h"

#include "connections.h"

/* The primary plane of a CRTC is the first one that can be shown on it. */
static uint32_t primary_of(const struct topology *topology, uint32_t possible_crtcs,
                           uint32_t before)
{
    int place = __builtin_ffs((int)(possible_crtcs & ~before)) - 1;

    return place >= 0 && (uint32_t)place < topology->count_crtcs ? topology->crtcs[place] : 0;
}

static int ask_planes(struct zirkoshe_client *client, struct topology *topology)
{
    struct zirkoshe_ids listed;
    struct zirkoshe_plane plane = {0, 0};
    uint32_t before = 0, at;
    int failed = zirkoshe_drmModeGetPlaneResources(client, &listed);

    for (at = 0; !failed && at < listed.count && at < MOST_OBJECTS; at++) {
        failed = zirkoshe_drmModeGetPlane(client, listed.ids[at], &plane);
        topology->planes[at] =
            (struct seen_plane){listed.ids[at], plane.possible_crtcs,
                                failed ? 0 : primary_of(topology, plane.possible_crtcs, before), 0};
        before |= plane.possible_crtcs;
        topology->count_planes = at + 1;
    }
    return failed;
}

static int ask_connectors(struct zirkoshe_client *client,
                          const struct zirkoshe_resources *resources, struct topology *topology)
{
    uint32_t at, encoder_id = 0, possible_crtcs;
    int failed = 0;

    for (at = 0; !failed && at < resources->count_connectors && at < MOST_OBJECTS; at++) {
        failed = zirkoshe_drmModeGetConnector(client, resources->connectors[at], &encoder_id);
        if (!failed)
            failed = zirkoshe_drmModeGetEncoder(client, encoder_id, &possible_crtcs);
        topology->connectors[at] =
            (struct seen_connector){resources->connectors[at], encoder_id, 0};
        if (!failed)
            topology->connectors[at].possible_crtcs = possible_crtcs;
        topology->count_connectors = at + 1;
    }
    return failed;
}

/* Which planes clients list without all planes: a device has them from its beginning. */
static struct {
    uint32_t id; /* 0 if the place is free */
    bool is_overlay;
} kinds[MOST_OBJECTS];

static size_t place_of_kind(uint32_t id)
{
    size_t at = 0;

    while (at < MOST_OBJECTS - 1 && kinds[at].id != id && kinds[at].id != 0)
        at++;
    return at;
}

static bool knows_kinds(const struct topology *topology)
{
    uint32_t at = 0;

    while (at < topology->count_planes
           && kinds[place_of_kind(topology->planes[at].id)].id == topology->planes[at].id)
        at++;
    return at == topology->count_planes;
}

static bool is_listed(const struct zirkoshe_ids *listed, uint32_t id)
{
    uint32_t at = 0;

    while (at < listed->count && listed->ids[at] != id)
        at++;
    return at < listed->count;
}

/* Asks which planes a client lists that doesn't list all. */
static int ask_kinds(struct zirkoshe_client *client, const struct topology *topology)
{
    struct zirkoshe_ids listed;
    uint32_t at;
    int failed = zirkoshe_drmSetClientCap(client, DRM_CLIENT_CAP_UNIVERSAL_PLANES, 0);

    if (failed)
        return failed;
    failed = zirkoshe_drmModeGetPlaneResources(client, &listed);
    for (at = 0; !failed && at < topology->count_planes; at++) {
        uint32_t id = topology->planes[at].id;
        size_t place = place_of_kind(id);

        kinds[place].id = id;
        kinds[place].is_overlay = is_listed(&listed, id);
    }
    if (!failed)
        failed = zirkoshe_drmSetClientCap(client, DRM_CLIENT_CAP_UNIVERSAL_PLANES, 1);
    return failed;
}

/* The second plane of a CRTC that isn't an overlay is its cursor plane. */
static void note_cursors(struct topology *topology)
{
    uint32_t before = 0, at;

    for (at = 0; at < topology->count_planes; at++) {
        struct seen_plane *plane = &topology->planes[at];
        int place = __builtin_ffs((int)plane->possible_crtcs) - 1;

        if (place < 0 || (uint32_t)place >= topology->count_crtcs
            || kinds[place_of_kind(plane->id)].is_overlay)
            continue;
        if (before & 1u << place)
            plane->cursor_of = topology->crtcs[place];
        before |= 1u << place;
    }
}

static int find_cursors(struct zirkoshe_client *client, struct topology *topology)
{
    int failed = knows_kinds(topology) ? 0 : ask_kinds(client, topology);

    if (!failed)
        note_cursors(topology);
    return failed;
}

static int ask(struct zirkoshe_client *client, struct topology *topology)
{
    struct zirkoshe_resources resources;
    uint32_t at;
    int failed = zirkoshe_drmModeGetResources(client, &resources);

    memset(topology, 0, sizeof *topology);
    if (failed)
        return failed;
    for (at = 0; at < resources.count_crtcs && at < MOST_OBJECTS; at++)
        topology->crtcs[at] = resources.crtcs[at];
    topology->count_crtcs = at;
    failed = ask_planes(client, topology);
    return failed ? failed : ask_connectors(client, &resources, topology);
}

int topology_find(struct connection *connection, const struct topology **topology)
{
    int failed = 0;

    if (connection->topology_at != standings_now()) {
        failed = ask(&connection->client, &connection->topology);
        if (!failed && connection->is_universal)
            failed = find_cursors(&connection->client, &connection->topology);
        connection->topology_at = failed ? 0 : standings_now();
    }
    *topology = &connection->topology;
    return failed;
}

const struct seen_plane *topology_plane(const struct topology *topology, uint32_t id)
{
    uint32_t at;

    for (at = 0; at < topology->count_planes; at++) {
        if (topology->planes[at].id == id)
            return &topology->planes[at];
    }
    return NULL;
}

const struct seen_connector *topology_connector(const struct topology *topology, uint32_t id)
{
    uint32_t at;

    for (at = 0; at < topology->count_connectors; at++) {
        if (topology->connectors[at].id == id)
            return &topology->connectors[at];
    }
    return NULL;
}

uint32_t topology_place(const struct topology *topology, uint32_t id)
{
    uint32_t at = 0;

    while (at < topology->count_crtcs && topology->crtcs[at] != id)
        at++;
    return at < topology->count_crtcs ? at : MOST_OBJECTS;
}

bool topology_has_crtc(const struct topology *topology, uint32_t id)
{
    return topology_place(topology, id) < MOST_OBJECTS;
}

bool topology_may_drive(const struct topology *topology, uint32_t possible_crtcs, uint32_t crtc_id)
{
    uint32_t place = topology_place(topology, crtc_id);

    return place < 32 && (possible_crtcs >> place & 1) != 0;
}
