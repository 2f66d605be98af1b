/* Which connectors have a monitor. */
#include "connectors.h"

#include "topologies.h"

#include <stddef.h>

static uint32_t unplugged[MOST_OBJECTS]; /* ids, or 0 if a place is free */

/* Returns the place of an id, or NULL. */
static uint32_t *place_of(uint32_t id)
{
    uint32_t at;

    for (at = 0; at < MOST_OBJECTS; at++) {
        if (unplugged[at] == id)
            return &unplugged[at];
    }
    return NULL;
}

void connector_plug(uint32_t connector_id)
{
    uint32_t *place = place_of(connector_id);

    if (place != NULL)
        *place = 0;
}

/* A device has no more connectors than places. */
void connector_unplug(uint32_t connector_id)
{
    uint32_t *place = connector_is_plugged(connector_id) ? place_of(0) : NULL;

    if (place != NULL)
        *place = connector_id;
}

bool connector_is_plugged(uint32_t connector_id)
{
    return place_of(connector_id) == NULL;
}
