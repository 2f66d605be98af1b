/* What is known of CRTCs, and their vertical blanking. */
#include "answers.h"

#include "crtcs.h"
#include "fences.h"

/* masks of CRTCs have 32 bits, so that a device has no more */
#define MOST_CRTCS 32
/* a number at most this much smaller has passed, as in the core */
#define PASSED ((uint64_t)1 << 23)

static struct crtc crtcs[MOST_CRTCS];

struct vblank last_vblank(const struct blanking *blanking, int64_t now)
{
    int64_t passed = (now - blanking->begin) / blanking->period;

    return (struct vblank){blanking->count + (uint64_t)passed,
                           blanking->begin + passed * blanking->period};
}

struct vblank vblank_of(const struct blanking *blanking, uint64_t sequence)
{
    struct vblank found = {sequence, 0};

    if (__builtin_mul_overflow((int64_t)(sequence - blanking->count), blanking->period, &found.time)
        || __builtin_add_overflow(found.time, blanking->begin, &found.time))
        found.time = INT64_MAX;
    return found;
}

bool has_passed(uint64_t sequence, uint64_t wanted)
{
    return sequence - wanted <= PASSED;
}

/* If a device had more than it can have, they would share the last place. */
struct crtc *crtc_of(uint32_t id)
{
    size_t at = 0;

    while (at < MOST_CRTCS - 1 && crtcs[at].id != id && crtcs[at].id != 0)
        at++;
    if (crtcs[at].id != id) {
        memset(&crtcs[at], 0, sizeof crtcs[at]);
        crtcs[at].id = id;
    }
    return &crtcs[at];
}

/* From one frame to the next in a mode; of a mode without timings, in the preferred one. */
static int64_t period_of(const struct drm_mode_modeinfo *mode)
{
    uint32_t count;
    const struct drm_mode_modeinfo *timed =
        mode->clock != 0 && mode->htotal != 0 && mode->vtotal != 0 ? mode : all_modes(&count);
    int64_t period = (int64_t)timed->htotal * timed->vtotal * MILLISECOND / timed->clock;

    if (timed->flags & DRM_MODE_FLAG_INTERLACE)
        period /= 2;
    return period > 0 ? period : 1;
}

/* Begins to blank now. The number continues. */
static void begin(struct crtc *crtc, const struct drm_mode_modeinfo *mode)
{
    int64_t now = time_now();

    if (crtc->is_lit)
        crtc->blanking.count = last_vblank(&crtc->blanking, now).sequence;
    crtc->mode = *mode;
    crtc->blanking.begin = now;
    crtc->blanking.period = period_of(mode);
    crtc->is_lit = true;
}

/* Ends the blanking. Who waits for one gets the last that there was. */
static void end(struct crtc *crtc)
{
    struct vblank last;

    if (!crtc->is_lit)
        return;
    last = last_vblank(&crtc->blanking, time_now());
    crtc->blanking.count = last.sequence;
    crtc->is_lit = false;
    crtc->is_set = false;
    crtc->flip_due = 0;
    events_hasten(crtc->id, last.sequence, last.time);
    fences_hasten(crtc->id);
}

void crtc_is_seen(uint32_t crtc_id, bool is_lit)
{
    struct crtc *crtc = crtc_of(crtc_id);
    uint32_t count;

    if (!is_lit)
        end(crtc);
    else if (!crtc->is_lit)
        begin(crtc, crtc->mode.clock != 0 ? &crtc->mode : all_modes(&count));
    crtc->is_sure = true;
}

void crtc_is_lit(uint32_t crtc_id, const struct drm_mode_modeinfo *mode, uint32_t connector_id)
{
    struct crtc *crtc = crtc_of(crtc_id);

    crtc->connector_id = connector_id;
    if (crtc->is_lit && memcmp(&crtc->mode, mode, sizeof *mode) != 0)
        end(crtc);
    if (!crtc->is_lit)
        begin(crtc, mode);
    crtc->is_set = true;
    crtc->is_sure = true;
}

bool crtc_is_surely_lit(uint32_t crtc_id)
{
    const struct crtc *crtc = crtc_of(crtc_id);

    return crtc->is_lit && crtc->is_sure;
}

void crtcs_are_unsure(void)
{
    size_t at;

    for (at = 0; at < MOST_CRTCS; at++)
        crtcs[at].is_sure = false;
}

bool crtc_flips(uint32_t crtc_id)
{
    return time_now() < crtc_of(crtc_id)->flip_due;
}
