/* Which connectors have a monitor. At first all have one. */
#ifndef ZIRKOSHE_LIBDRM_CONNECTORS_H
#define ZIRKOSHE_LIBDRM_CONNECTORS_H

#include <stdbool.h>
#include <stdint.h>

/* Connects a monitor, or disconnects it. What CRTCs show stays. */
void connector_plug(uint32_t connector_id);
void connector_unplug(uint32_t connector_id);

/* Returns whether it has a monitor. */
bool connector_is_plugged(uint32_t connector_id);

#endif
