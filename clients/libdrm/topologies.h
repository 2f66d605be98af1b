/* The mode objects of a device as one client sees them, with what can be shown where.
 *
 * A bit of a mask is the position of a CRTC among those that the client sees.
 */
#ifndef ZIRKOSHE_LIBDRM_TOPOLOGIES_H
#define ZIRKOSHE_LIBDRM_TOPOLOGIES_H

#include <stdbool.h>
#include <stdint.h>

/* A device has no more mode objects, of all kinds together. */
#define MOST_OBJECTS 64

struct seen_plane {
    uint32_t id, possible_crtcs;
    uint32_t primary_of; /* the CRTC whose primary plane it represents, or 0 */
    uint32_t cursor_of;  /* the CRTC whose cursor plane it is, or 0 */
};

struct seen_connector {
    uint32_t id, encoder_id, possible_crtcs; /* the mask of its encoder */
};

struct topology {
    uint32_t count_crtcs, count_planes, count_connectors;
    uint32_t crtcs[MOST_OBJECTS];
    struct seen_plane planes[MOST_OBJECTS];
    struct seen_connector connectors[MOST_OBJECTS];
};

struct connection;

/* Returns what the caller sees in `topology`; 0, or a negative errno. The server is asked the first
 * time, and again after a request can have changed it, or the server refused one. */
int topology_find(struct connection *connection, const struct topology **topology);

/* Return the object with this id, or NULL if the client does not see it. */
const struct seen_plane *topology_plane(const struct topology *topology, uint32_t id);
const struct seen_connector *topology_connector(const struct topology *topology, uint32_t id);

/* Returns the position of a CRTC, or MOST_OBJECTS; whether the client sees the CRTC, and whether a
 * mask has it. */
uint32_t topology_place(const struct topology *topology, uint32_t id);
bool topology_has_crtc(const struct topology *topology, uint32_t id);
bool topology_may_drive(const struct topology *topology, uint32_t possible_crtcs, uint32_t crtc_id);

#endif
