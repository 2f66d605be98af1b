/* Answers to requests of gamma tables. Each CRTC has one of 256 entries, and the property
 * GAMMA_LUT, which MODE_SETGAMMA sets too. */
#include "answers.h"

#include "blobs.h"
#include "crtcs.h"
#include "states.h"

#define COLORS 3

/* The tables that MODE_SETGAMMA set */
struct gamma {
    uint32_t crtc_id; /* 0 if the place is free */
    uint16_t entries[COLORS][GAMMA_SIZE];
};

static struct gamma gammas[MOST_OBJECTS];

/* Each entry is as bright as its place, as drm_mode_crtc_set_gamma_size begins. */
static void begin(struct gamma *gamma, uint32_t crtc_id)
{
    size_t at;

    gamma->crtc_id = crtc_id;
    for (at = 0; at < (size_t)COLORS * GAMMA_SIZE; at++)
        gamma->entries[at / GAMMA_SIZE][at % GAMMA_SIZE] = (uint16_t)(at % GAMMA_SIZE << 8);
}

/* A device has no more CRTCs than places. */
static struct gamma *gamma_of(uint32_t crtc_id)
{
    size_t at = 0;

    while (at < MOST_OBJECTS - 1 && gammas[at].crtc_id != crtc_id && gammas[at].crtc_id != 0)
        at++;
    if (gammas[at].crtc_id != crtc_id)
        begin(&gammas[at], crtc_id);
    return &gammas[at];
}

/* Looks whether the caller sees the CRTC, and whether the size is that of its table. */
static int check(struct connection *connection, const struct drm_mode_crtc_lut *asked)
{
    uint32_t fb_id;
    int failed = zirkoshe_drmModeGetCrtc(&connection->client, asked->crtc_id, &fb_id);

    return failed ? failed : asked->gamma_size == GAMMA_SIZE ? 0 : -EINVAL;
}

int answer_get_gamma(struct connection *connection, void *argument)
{
    const struct drm_mode_crtc_lut *asked = argument;
    const uint64_t addresses[COLORS] = {asked->red, asked->green, asked->blue};
    const struct gamma *gamma;
    int failed = check(connection, asked);
    size_t color;

    if (failed)
        return failed;
    gamma = gamma_of(asked->crtc_id);
    for (color = 0; !failed && color < COLORS; color++)
        failed = copy_to_caller(addresses[color], gamma->entries[color], sizeof gamma->entries[0]);
    return failed;
}

/* The value of GAMMA_LUT for a table, or 0 if there is no memory. */
static uint32_t blob_of_gamma(const struct gamma *gamma)
{
    struct drm_color_lut entries[GAMMA_SIZE];
    size_t at;

    for (at = 0; at < GAMMA_SIZE; at++)
        entries[at] = (struct drm_color_lut){gamma->entries[0][at], gamma->entries[1][at],
                                             gamma->entries[2][at], 0};
    return blob_of_display(entries, sizeof entries);
}

int answer_set_gamma(struct connection *connection, void *argument)
{
    const struct drm_mode_crtc_lut *asked = argument;
    const uint64_t addresses[COLORS] = {asked->red, asked->green, asked->blue};
    struct gamma set = {.crtc_id = asked->crtc_id};
    int failed = check(connection, asked);
    uint32_t blob_id;
    size_t color;

    for (color = 0; !failed && color < COLORS; color++)
        failed = copy_from_caller(set.entries[color], addresses[color], sizeof set.entries[0]);
    if (failed)
        return failed;
    blob_id = blob_of_gamma(&set);
    if (blob_id == 0)
        return -ENOMEM;
    *gamma_of(asked->crtc_id) = set;
    state_gamma_is_set(asked->crtc_id, blob_id);
    blob_drop(blob_id);
    return 0;
}
