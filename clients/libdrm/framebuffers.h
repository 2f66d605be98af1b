/* What is known of framebuffers: those that programs added, with the format, which the server does
 * not keep. Only the connection that added a framebuffer can remove it, or end.
 */
#ifndef ZIRKOSHE_LIBDRM_FRAMEBUFFERS_H
#define ZIRKOSHE_LIBDRM_FRAMEBUFFERS_H

#include "connections.h"

struct framebuffer {
    uint32_t width, height;
    uint32_t format; /* 0 if it is not known */
    uint32_t pitch;
    uint32_t client; /* the server's number of the one that added it */
};

/* Notes that a connection added or removed a framebuffer, or is closed. */
void framebuffer_is_added(struct connection *connection, uint32_t fb_id,
                          const struct framebuffer *framebuffer, uint32_t handle);
void framebuffer_is_removed(uint32_t fb_id);
void framebuffers_end(const struct connection *connection);

/* Notes that it is the image of a cursor, which no list has; returns whether it is. */
void framebuffer_has_cursor(uint32_t fb_id);
bool framebuffer_is_of_cursor(uint32_t fb_id);

/* Returns whether a program added it. */
bool framebuffer_is_known(uint32_t fb_id, struct framebuffer *framebuffer);

/* Returns the object of a framebuffer, or NULL. */
struct object *framebuffer_object(uint32_t fb_id);

/* Finds any framebuffer, by the server if it is not known; 0, or a negative errno. */
int framebuffer_find(struct connection *connection, uint32_t fb_id,
                     struct framebuffer *framebuffer);

/* Returns whether it contains a rectangle in 16.16 fixed point, as drm_framebuffer_check_src_coords
 * does, or one in pixels. */
bool framebuffer_contains_source(const struct framebuffer *framebuffer, uint64_t x, uint64_t y,
                                 uint64_t width, uint64_t height);
bool framebuffer_contains(const struct framebuffer *framebuffer, uint32_t x, uint32_t y,
                          uint32_t width, uint32_t height);

#endif
