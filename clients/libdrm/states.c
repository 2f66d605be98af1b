/* What is shown. */
#include "states.h"

#include "answers.h"
#include "blobs.h"
#include "crtcs.h"

/* The key of a primary plane is that of its CRTC, with this bit. Ids of the server are smaller. */
#define PRIMARY_OF 0x80000000u

static struct state now;

/* Finds the place of a key, with which each place begins, or takes the next one. A device has no
 * more objects than places. If it had, the last place would be shared. */
static void *find_place(void *places, uint32_t *count, size_t size, uint32_t key)
{
    uint8_t *place = places;
    uint32_t found, at;

    for (at = 0; at < *count; at++, place += size) {
        memcpy(&found, place, sizeof found);
        if (found == key)
            return place;
    }
    if (*count == MOST_OBJECTS)
        place -= size;
    else
        ++*count;
    memset(place, 0, size);
    return memcpy(place, &key, sizeof key);
}

static struct plane_state *find_plane(struct state *state, uint32_t key)
{
    return find_place(state->planes, &state->count_planes, sizeof state->planes[0], key);
}

struct plane_state *state_of_plane(struct state *state, const struct seen_plane *plane)
{
    return find_plane(state, plane->primary_of != 0 ? PRIMARY_OF | plane->primary_of : plane->id);
}

struct plane_state *state_of_primary(struct state *state, uint32_t crtc_id)
{
    return find_plane(state, PRIMARY_OF | crtc_id);
}

struct crtc_state *state_of_crtc(struct state *state, uint32_t crtc_id)
{
    return find_place(state->crtcs, &state->count_crtcs, sizeof state->crtcs[0], crtc_id);
}

struct connector_state *state_of_connector(struct state *state, uint32_t connector_id)
{
    return find_place(state->connectors, &state->count_connectors, sizeof state->connectors[0],
                      connector_id);
}

static bool overflows(int32_t position, uint32_t length)
{
    return length > INT32_MAX || (int64_t)position + (int64_t)length > INT32_MAX;
}

bool plane_overflows(const struct plane_state *plane)
{
    return overflows((int32_t)plane->crtc_x, plane->crtc_w)
           || overflows((int32_t)plane->crtc_y, plane->crtc_h);
}

uint32_t state_connector(const struct state *state, uint32_t crtc_id, unsigned *count)
{
    uint32_t found = 0, at;

    *count = 0;
    for (at = 0; at < state->count_connectors; at++) {
        if (state->connectors[at].crtc_id == crtc_id && ++*count == 1)
            found = state->connectors[at].id;
    }
    return found;
}

struct state *state_now(void)
{
    return &now;
}

void state_copy(struct state *to, const struct state *from)
{
    to->count_planes = from->count_planes;
    to->count_crtcs = from->count_crtcs;
    to->count_connectors = from->count_connectors;
    memcpy(to->planes, from->planes, from->count_planes * sizeof from->planes[0]);
    memcpy(to->crtcs, from->crtcs, from->count_crtcs * sizeof from->crtcs[0]);
    memcpy(to->connectors, from->connectors, from->count_connectors * sizeof from->connectors[0]);
}

/* A state that was made of another one has its objects in the same places. */
void state_change(const struct state *before, const struct state *after)
{
    uint32_t at;

    for (at = 0; at < after->count_planes; at++) {
        if (memcmp(&after->planes[at], &before->planes[at], sizeof after->planes[at]) != 0)
            *find_plane(&now, after->planes[at].key) = after->planes[at];
    }
    for (at = 0; at < after->count_crtcs; at++) {
        if (memcmp(&after->crtcs[at], &before->crtcs[at], sizeof after->crtcs[at]) != 0)
            *state_of_crtc(&now, after->crtcs[at].id) = after->crtcs[at];
    }
    for (at = 0; at < after->count_connectors; at++) {
        if (after->connectors[at].crtc_id != before->connectors[at].crtc_id)
            *state_of_connector(&now, after->connectors[at].id) = after->connectors[at];
    }
}

/* Sets a mode, or none. */
static void set_mode(struct crtc_state *crtc, const struct drm_mode_modeinfo *mode)
{
    crtc->is_active = mode != NULL;
    if (mode != NULL && crtc->mode_id != 0 && memcmp(&crtc->mode, mode, sizeof *mode) == 0)
        return;
    blob_drop(crtc->mode_id);
    crtc->mode_id = mode != NULL ? blob_of_display(mode, sizeof *mode) : 0;
    memset(&crtc->mode, 0, sizeof crtc->mode);
    if (mode != NULL)
        crtc->mode = *mode;
}

void state_gamma_is_set(uint32_t crtc_id, uint32_t blob_id)
{
    struct crtc_state *crtc = state_of_crtc(&now, crtc_id);

    blob_use(blob_id);
    blob_drop(crtc->gamma_id);
    crtc->gamma_id = blob_id;
}

/* Takes all connectors from a CRTC. */
static void unplug(struct state *state, uint32_t crtc_id)
{
    uint32_t at;

    for (at = 0; at < state->count_connectors; at++) {
        if (state->connectors[at].crtc_id == crtc_id)
            state->connectors[at].crtc_id = 0;
    }
}

void state_crtc_is_set(uint32_t crtc_id, uint32_t connector_id, const struct plane_state *primary,
                       const struct drm_mode_modeinfo *mode)
{
    struct plane_state *plane = state_of_primary(&now, crtc_id);

    set_mode(state_of_crtc(&now, crtc_id), primary != NULL ? mode : NULL);
    unplug(&now, crtc_id);
    if (primary != NULL) {
        uint32_t key = plane->key;

        *plane = *primary;
        plane->key = key;
        state_of_connector(&now, connector_id)->crtc_id = crtc_id;
    } else {
        plane->crtc_id = plane->fb_id = 0;
    }
}

void state_crtc_flips(uint32_t crtc_id, uint32_t fb_id)
{
    state_of_primary(&now, crtc_id)->fb_id = fb_id;
}

void state_plane_is_set(const struct plane_state *plane)
{
    *find_plane(&now, plane->key) = *plane;
}

/* The framebuffer of a client of the server is shown in the mode that the CRTC last had, or else in
 * the preferred one. */
static void note_seen(uint32_t crtc_id, uint32_t fb_id)
{
    struct plane_state *plane = state_of_primary(&now, crtc_id);
    struct crtc_state *crtc = state_of_crtc(&now, crtc_id);
    uint32_t count;

    if (fb_id == 0 && crtc->is_active)
        plane->fb_id = plane->crtc_id = 0;
    if (fb_id != 0 && !crtc->is_active) {
        set_mode(crtc, crtc->mode_id != 0 ? &crtc->mode : all_modes(&count));
        plane->src_x = plane->src_y = 0;
    }
    if (fb_id != 0 && plane->fb_id != fb_id) {
        plane->fb_id = fb_id;
        plane->crtc_id = crtc_id;
        plane->crtc_w = crtc->mode.hdisplay;
        plane->crtc_h = crtc->mode.vdisplay;
        plane->src_w = plane->crtc_w << 16;
        plane->src_h = plane->crtc_h << 16;
    }
}

int crtc_look(struct connection *connection, uint32_t crtc_id, uint32_t *fb_id)
{
    int failed = zirkoshe_drmModeGetCrtc(&connection->client, crtc_id, fb_id);

    if (failed)
        return failed;
    crtc_is_seen(crtc_id, *fb_id != 0);
    note_seen(crtc_id, *fb_id);
    return 0;
}

void state_fb_is_removed(uint32_t fb_id)
{
    uint32_t at;

    for (at = 0; at < now.count_planes; at++) {
        if (now.planes[at].fb_id == fb_id)
            now.planes[at].fb_id = now.planes[at].crtc_id = 0;
    }
}
