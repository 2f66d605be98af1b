/* The answers to requests, one function each. The connection is held. A function fills in the
 * request's struct.
 *
 * Each returns 0 or a negative errno. If the server refuses, that is the errno of its rule. */
#ifndef ZIRKOSHE_LIBDRM_ANSWERS_H
#define ZIRKOSHE_LIBDRM_ANSWERS_H

#include "callers.h"
#include "connections.h"

#include <drm.h>
#include <drm_fourcc.h>
#include <drm_mode.h>

#include "newer.h"

/* the largest width and height of a cursor, which a capability reports */
#define MOST_CURSOR_SIDE 64

typedef int answer(struct connection *connection, void *argument);

/* core_calls.c: the driver, its capabilities, masters and magics */
answer answer_version, answer_get_unique, answer_get_client, answer_nothing, answer_set_version,
    answer_get_cap, answer_set_client_cap, answer_get_magic, answer_auth_magic, answer_set_master,
    answer_drop_master;

/* The name of the driver */
const char *driver_name(void);

/* buffer_calls.c: handles, names, PRIME and dumb buffers */
answer answer_gem_close, answer_gem_flink, answer_gem_open, answer_prime_export,
    answer_prime_import, answer_create_dumb, answer_map_dumb, answer_destroy_dumb;

/* mode_calls.c: mode objects and what they show */
answer answer_get_resources, answer_get_crtc, answer_set_crtc, answer_get_encoder,
    answer_get_connector, answer_get_plane_resources, answer_get_plane, answer_set_plane;

/* framebuffer_calls.c */
answer answer_add_fb, answer_add_fb2, answer_get_fb, answer_get_fb2, answer_rm_fb;

/* property_calls.c: properties and their blobs */
answer answer_get_object_properties, answer_get_property, answer_set_object_property,
    answer_set_connector_property, answer_create_blob, answer_get_blob, answer_destroy_blob;
int give_connector_properties(struct connection *connection,
                              struct drm_mode_get_connector *connector);

/* atomic_calls.c */
answer answer_atomic;

/* lease_calls.c */
answer answer_list_lessees, answer_get_lease, answer_revoke_lease, answer_create_lease;

/* vblank_calls.c */
answer answer_get_sequence, answer_queue_sequence, answer_wait_vblank;

/* flip_calls.c: also has a flip complete, with an event or without one: at the next vertical
 * blanking of a CRTC, or at once if that is dark. Returns the time. */
answer answer_page_flip;
int64_t complete_flip(struct connection *connection, uint32_t crtc_id, bool has_event,
                      uint64_t user_data);

/* cursor_calls.c */
answer answer_cursor;

/* syncobj_calls.c, syncobj_waits.c, syncobj_eventfds.c: synchronisation objects */
answer answer_syncobj_create, answer_syncobj_destroy, answer_syncobj_export, answer_syncobj_import,
    answer_syncobj_reset, answer_syncobj_signal, answer_syncobj_timeline_signal,
    answer_syncobj_query, answer_syncobj_transfer, answer_syncobj_wait,
    answer_syncobj_timeline_wait, answer_syncobj_eventfd;

/* gamma_calls.c; the entries of each table */
#define GAMMA_SIZE 256
answer answer_get_gamma, answer_set_gamma;

/* lacking_calls.c: the answers of a driver without the call */
answer lacks_dirty;

/* ioctls.c: that the caller is current, which the server is asked once; 0, or a negative errno. The
 * error of a current caller, whose rule is kept, or that of another one. */
int permit_master(struct connection *connection);
int refuse_current(struct zirkoshe_client *client, int error);

/* formats.c: the bits of a pixel in a format, or 0; the format that represents N bits, or 0; the
 * format that ADDFB means by bits and depth, or 0; all formats */
uint32_t bits_of_format(uint32_t format);
uint32_t depth_of_bits(uint32_t bits);
uint32_t format_of_bits(uint32_t bits);
uint32_t format_of_depth(uint32_t bits, uint32_t depth);
const uint32_t *all_formats(uint32_t *count);

/* modes.c: the modes of the virtual monitors. The first one is preferred. */
const struct drm_mode_modeinfo *all_modes(uint32_t *count);

/* Checks a mode of the caller's, as drm_mode_convert_umode does; 0, or a negative errno. */
int check_mode(const struct drm_mode_modeinfo *mode);

/* Gives a list as the core does: as much of it as there is room for, and how long it is. */
int give(uint64_t pointer, uint32_t *room, const void *items, uint32_t count, size_t size);

/* Returns a text likewise, if there is a buffer. */
int give_text(char *buffer, size_t *room, const char *text);

#endif
