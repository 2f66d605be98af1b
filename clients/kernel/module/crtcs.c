// SPDX-License-Identifier: GPL-2.0-only
// CRTCs without hardware: those that never blank, and those with a timer for the vertical blanking.
#include <drm/drm_atomic.h>
#include <drm/drm_atomic_helper.h>
#include <drm/drm_atomic_state_helper.h>
#include <drm/drm_modeset_helper_vtables.h>
#include <drm/drm_vblank.h>

#include "card.h"

#define crtc_of(base) container_of(base, struct crtc, base)

// nothing is to be done where there is no hardware
static void change_nothing(struct drm_crtc *crtc, struct drm_atomic_state *state)
{
}

const struct drm_crtc_helper_funcs zirkoshe_crtc_helpers = {
    .atomic_enable = change_nothing,
    .atomic_disable = change_nothing,
};

const struct drm_crtc_funcs zirkoshe_crtc_functions = {
    .set_config = drm_atomic_helper_set_config,
    .page_flip = drm_atomic_helper_page_flip,
    .destroy = drm_crtc_cleanup,
    .reset = drm_atomic_helper_crtc_reset,
    .atomic_duplicate_state = drm_atomic_helper_crtc_duplicate_state,
    .atomic_destroy_state = drm_atomic_helper_crtc_destroy_state,
};

static enum hrtimer_restart blank(struct hrtimer *timer)
{
    struct crtc *crtc = container_of(timer, struct crtc, timer);

    drm_crtc_handle_vblank(&crtc->base);
    hrtimer_forward_now(timer, crtc->period);
    return HRTIMER_RESTART;
}

static int start_blanking(struct drm_crtc *base)
{
    struct crtc *crtc = crtc_of(base);
    struct drm_vblank_crtc *vblank = &base->dev->vblank[drm_crtc_index(base)];

    hrtimer_init(&crtc->timer, CLOCK_MONOTONIC, HRTIMER_MODE_REL);
    crtc->timer.function = blank;
    crtc->period = ktime_set(0, vblank->framedur_ns);
    hrtimer_start(&crtc->timer, crtc->period, HRTIMER_MODE_REL);
    return 0;
}

static void stop_blanking(struct drm_crtc *base)
{
    hrtimer_try_to_cancel(&crtc_of(base)->timer);
}

static void enable(struct drm_crtc *base, struct drm_atomic_state *state)
{
    drm_crtc_vblank_on(base);
}

static void disable(struct drm_crtc *base, struct drm_atomic_state *state)
{
    drm_crtc_vblank_off(base);
    hrtimer_cancel(&crtc_of(base)->timer);
}

// Lets the event of a commit be sent at the next vertical blanking.
static void flush(struct drm_crtc *base, struct drm_atomic_state *state)
{
    struct drm_pending_vblank_event *event = base->state->event;

    if (!event)
        return;
    base->state->event = NULL;
    spin_lock_irq(&base->dev->event_lock);
    if (drm_crtc_vblank_get(base) == 0)
        drm_crtc_arm_vblank_event(base, event);
    else
        drm_crtc_send_vblank_event(base, event);
    spin_unlock_irq(&base->dev->event_lock);
}

const struct drm_crtc_helper_funcs zirkoshe_blanking_crtc_helpers = {
    .atomic_enable = enable,
    .atomic_disable = disable,
    .atomic_flush = flush,
};

const struct drm_crtc_funcs zirkoshe_blanking_crtc_functions = {
    .set_config = drm_atomic_helper_set_config,
    .page_flip = drm_atomic_helper_page_flip,
    .destroy = drm_crtc_cleanup,
    .reset = drm_atomic_helper_crtc_reset,
    .atomic_duplicate_state = drm_atomic_helper_crtc_duplicate_state,
    .atomic_destroy_state = drm_atomic_helper_crtc_destroy_state,
    .enable_vblank = start_blanking,
    .disable_vblank = stop_blanking,
};
