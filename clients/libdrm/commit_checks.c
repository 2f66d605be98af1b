/* What an atomic commit is refused by: drm_atomic_check_only of the core, and the rules of the
 * server. The server has the same rules, so that a commit that passes is denied only if another
 * client changed something since. */
#include "commits.h"

#include "framebuffers.h"

/* drm_atomic_plane_check. A primary plane is shown on its own CRTC. */
static int check_plane(const struct commit *commit, const struct seen_plane *seen,
                       const struct plane_state *before, const struct plane_state *after)
{
    struct framebuffer framebuffer;
    int failed;

    if ((after->crtc_id == 0) != (after->fb_id == 0))
        return -EINVAL;
    if (after->crtc_id == 0)
        return 0;
    if (!topology_may_drive(commit->topology, seen->possible_crtcs, after->crtc_id)
        || (seen->primary_of != 0 && seen->primary_of != after->crtc_id))
        return -EINVAL;
    if (plane_overflows(after))
        return -ERANGE;
    failed = framebuffer_find(commit->connection, after->fb_id, &framebuffer);
    if (failed)
        return failed == -ENOENT ? -EINVAL : failed;
    if (!framebuffer_contains_source(&framebuffer, after->src_x, after->src_y, after->src_w,
                                     after->src_h))
        return -ENOSPC;
    return before->crtc_id != 0 && before->crtc_id != after->crtc_id ? -EINVAL : 0;
}

/* drm_atomic_crtc_check. */
static int check_crtc(const struct commit *commit, const struct crtc_state *before,
                      const struct crtc_state *after)
{
    if (after->is_active && after->mode_id == 0)
        return -EINVAL;
    return (commit->has_event || commit_signals(commit, after->id)) && !before->is_active
                   && !after->is_active
               ? -EINVAL
               : 0;
}

/* Returns whether the connectors of a CRTC change. */
static bool connectors_change(const struct commit *commit, uint32_t crtc_id)
{
    uint32_t at;

    for (at = 0; at < commit->after.count_connectors; at++) {
        const struct connector_state *before = &commit->before.connectors[at];
        const struct connector_state *after = &commit->after.connectors[at];

        if (before->crtc_id != after->crtc_id
            && (before->crtc_id == crtc_id || after->crtc_id == crtc_id))
            return true;
    }
    return false;
}

/* drm_atomic_helper_check_modeset: a CRTC with a mode has a connector, and one without has none.
 * The server takes one connector. What needs a modeset is refused without ALLOW_MODESET. */
static int check_modeset(const struct commit *commit, const struct crtc_state *before,
                         const struct crtc_state *after)
{
    unsigned count;

    state_connector(&commit->after, after->id, &count);
    if ((after->mode_id != 0) != (count > 0) || count > 1)
        return -EINVAL;
    return !commit->may_set_modes
                   && (before->is_active != after->is_active
                       || memcmp(&before->mode, &after->mode, sizeof after->mode) != 0
                       || connectors_change(commit, after->id))
               ? -EINVAL
               : 0;
}

static int check_planes(struct commit *commit)
{
    uint32_t at;
    int failed = 0;

    for (at = 0; !failed && at < commit->topology->count_planes; at++) {
        const struct seen_plane *seen = &commit->topology->planes[at];

        if (commit->planes >> at & 1)
            failed = check_plane(commit, seen, state_of_plane(&commit->before, seen),
                                 state_of_plane(&commit->after, seen));
    }
    return failed;
}

static int check_crtcs(struct commit *commit,
                       int check(const struct commit *, const struct crtc_state *,
                                 const struct crtc_state *))
{
    uint32_t at;
    int failed = 0;

    for (at = 0; !failed && at < commit->topology->count_crtcs; at++) {
        uint32_t id = commit->topology->crtcs[at];

        if (commit->crtcs >> at & 1)
            failed = check(commit, state_of_crtc(&commit->before, id),
                           state_of_crtc(&commit->after, id));
    }
    return failed;
}

/* A connector's encoder can be driven by its CRTC. */
static int check_connectors(struct commit *commit)
{
    uint32_t at;

    for (at = 0; at < commit->topology->count_connectors; at++) {
        const struct seen_connector *seen = &commit->topology->connectors[at];
        uint32_t crtc_id = state_of_connector(&commit->after, seen->id)->crtc_id;

        if ((commit->connectors >> at & 1) && crtc_id != 0
            && !topology_may_drive(commit->topology, seen->possible_crtcs, crtc_id))
            return -EINVAL;
    }
    return 0;
}

int commit_check(struct commit *commit)
{
    int failed = check_planes(commit);

    if (!failed)
        failed = check_crtcs(commit, check_crtc);
    if (!failed)
        failed = check_connectors(commit);
    return failed ? failed : check_crtcs(commit, check_modeset);
}
