/* Which CRTC drives what now. The server keeps framebuffers only, so this is what programs set, as
 * far as the server agrees, and what the server's answers leave no choice about. */
#ifndef ZIRKOSHE_LIBDRM_ROUTES_H
#define ZIRKOSHE_LIBDRM_ROUTES_H

#include "connections.h"

/* Each returns 0, or a negative errno. The CRTC is 0 if there is none, or none is known.
 *
 * The CRTC that drives a connector, or an encoder that the caller sees. */
int route_of_connector(struct connection *connection, uint32_t connector_id, uint32_t *crtc_id);
int route_of_encoder(struct connection *connection, uint32_t encoder_id, uint32_t *crtc_id);

/* What a plane shows, and where. The server has reported `plane`. A CRTC's primary plane shows what
 * the CRTC shows. */
int route_of_plane(struct connection *connection, uint32_t plane_id, struct zirkoshe_plane *plane,
                   uint32_t *crtc_id);

#endif
