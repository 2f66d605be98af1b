/* What is known of framebuffers. */
#include "framebuffers.h"

#include "states.h"

#include <stdlib.h>

struct added {
    uint64_t owner; /* the cookie of the connection that added it, or 0 */
    struct framebuffer framebuffer;
    struct object *object; /* what it shows, if that is known */
    bool is_of_cursor;
};

static struct added *all; /* by their ids, which are the lowest that are free */
static uint32_t room;

/* Makes room for an id. Without memory the framebuffer stays unknown. */
static bool has_room(uint32_t fb_id)
{
    uint32_t more = room > 0 ? room : 64;
    struct added *grown;

    while (more <= fb_id && more < UINT32_MAX / 2)
        more *= 2;
    if (fb_id < room)
        return true;
    grown = fb_id < more ? realloc(all, more * sizeof *all) : NULL;
    if (grown == NULL)
        return false;
    memset(grown + room, 0, (more - room) * sizeof *all);
    all = grown;
    room = more;
    return true;
}

/* The framebuffer is not known any more. */
static void remove_known(struct added *added)
{
    if (added->owner != 0 && added->object != NULL)
        object_drop(added->object);
    *added = (struct added){0};
}

void framebuffer_is_added(struct connection *connection, uint32_t fb_id,
                          const struct framebuffer *framebuffer, uint32_t handle)
{
    if (!has_room(fb_id))
        return;
    remove_known(&all[fb_id]);
    all[fb_id] =
        (struct added){connection->cookie, *framebuffer, buffers_use(connection, handle), false};
    all[fb_id].framebuffer.client = connection->client.number;
}

void framebuffer_is_removed(uint32_t fb_id)
{
    if (fb_id < room)
        remove_known(&all[fb_id]);
}

void framebuffers_end(const struct connection *connection)
{
    uint32_t at;

    for (at = 0; at < room; at++) {
        if (all[at].owner == connection->cookie) {
            remove_known(&all[at]);
            state_fb_is_removed(at);
        }
    }
}

void framebuffer_has_cursor(uint32_t fb_id)
{
    if (fb_id < room)
        all[fb_id].is_of_cursor = true;
}

bool framebuffer_is_of_cursor(uint32_t fb_id)
{
    return fb_id < room && all[fb_id].is_of_cursor;
}

bool framebuffer_is_known(uint32_t fb_id, struct framebuffer *framebuffer)
{
    bool is_known = fb_id < room && all[fb_id].owner != 0;

    if (is_known)
        *framebuffer = all[fb_id].framebuffer;
    return is_known;
}

struct object *framebuffer_object(uint32_t fb_id)
{
    return fb_id < room && all[fb_id].owner != 0 ? all[fb_id].object : NULL;
}

/* The server creates a handle for a caller that is current or root. It is closed again. If there is
 * no room for one, any size may be the framebuffer's. */
int framebuffer_find(struct connection *connection, uint32_t fb_id, struct framebuffer *framebuffer)
{
    struct zirkoshe_client *client = &connection->client;
    struct zirkoshe_fb found;
    int failed;

    if (framebuffer_is_known(fb_id, framebuffer))
        return 0;
    failed = zirkoshe_drmModeGetFB(client, fb_id, &found);
    if (failed && client->rule == ZIRKOSHE_RULE_FULL) {
        client->rule = 0;
        *framebuffer = (struct framebuffer){.width = UINT32_MAX, .height = UINT32_MAX};
        return 0;
    }
    if (!failed && found.handle != 0)
        failed = zirkoshe_drmCloseBufferHandle(client, found.handle);
    if (!failed)
        *framebuffer = (struct framebuffer){.width = found.width, .height = found.height};
    return failed;
}

/* Whether a part of a side, from a position on, is inside it. */
static bool is_inside(uint64_t position, uint64_t part, uint64_t side)
{
    return part <= side && position <= side - part;
}

bool framebuffer_contains_source(const struct framebuffer *framebuffer, uint64_t x, uint64_t y,
                                 uint64_t width, uint64_t height)
{
    return is_inside(x, width, (uint64_t)framebuffer->width << 16)
           && is_inside(y, height, (uint64_t)framebuffer->height << 16);
}

bool framebuffer_contains(const struct framebuffer *framebuffer, uint32_t x, uint32_t y,
                          uint32_t width, uint32_t height)
{
    return framebuffer_contains_source(framebuffer, (uint64_t)x << 16, (uint64_t)y << 16,
                                       (uint64_t)width << 16, (uint64_t)height << 16);
}
