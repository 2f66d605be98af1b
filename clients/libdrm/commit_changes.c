/* Showing an atomic commit: the calls by which the server shows what changed. */
#include "commits.h"

#include "blobs.h"
#include "crtcs.h"

/* A CRTC or a plane that shows another framebuffer afterwards. */
struct shown {
    uint32_t crtc_id, fb_id, connector_id;
};

struct change {
    uint32_t plane_id; /* 0 for the CRTC itself */
    struct shown before, after;
};

struct changes {
    unsigned count;
    struct change all[MOST_OBJECTS];
};

/* What a plane shows: nothing while its CRTC is not active. */
static struct shown shown_by(struct state *state, const struct seen_plane *seen)
{
    const struct plane_state *plane = state_of_plane(state, seen);
    struct shown shown = {plane->crtc_id, 0, 0};
    unsigned count;

    if (plane->crtc_id != 0 && state_of_crtc(state, plane->crtc_id)->is_active)
        shown.fb_id = plane->fb_id;
    if (shown.fb_id != 0)
        shown.connector_id = state_connector(state, plane->crtc_id, &count);
    return shown;
}

/* A primary plane shows on its CRTC, which the server asks for with its connector. */
static bool differ(const struct shown *before, const struct shown *after, bool is_primary)
{
    return before->fb_id != after->fb_id
           || (after->fb_id != 0
               && (is_primary ? before->connector_id != after->connector_id
                              : before->crtc_id != after->crtc_id));
}

/* The changes to or from nothing, as far as `darkens` says. */
static void find_changes(struct commit *commit, bool darkens, struct changes *changes)
{
    uint32_t at;

    for (at = 0; at < commit->topology->count_planes; at++) {
        const struct seen_plane *seen = &commit->topology->planes[at];
        struct change change = {seen->primary_of != 0 ? 0 : seen->id,
                                shown_by(&commit->before, seen), shown_by(&commit->after, seen)};

        if (seen->primary_of != 0)
            change.before.crtc_id = change.after.crtc_id = seen->primary_of;
        if ((change.after.fb_id == 0) == darkens
            && differ(&change.before, &change.after, seen->primary_of != 0))
            changes->all[changes->count++] = change;
    }
}

static struct zirkoshe_plain_call call_of(uint32_t plane_id, const struct shown *shown)
{
    if (plane_id == 0)
        return (struct zirkoshe_plain_call){
            ZIRKOSHE_CALL_MODE_SETCRTC, {shown->crtc_id, shown->fb_id, shown->connector_id}, 0, 0};
    return (struct zirkoshe_plain_call){
        ZIRKOSHE_CALL_MODE_SETPLANE, {plane_id, shown->crtc_id, shown->fb_id}, 0, 0};
}

/* Takes back the changes that were made, the last of them first. */
static void take_back(struct zirkoshe_client *client, const struct changes *changes,
                      const struct zirkoshe_plain_call *made)
{
    struct zirkoshe_plain_call calls[MOST_OBJECTS];
    unsigned at, count = 0;

    for (at = changes->count; at-- > 0;) {
        if (made[at].failed == 0)
            calls[count++] = call_of(changes->all[at].plane_id, &changes->all[at].before);
    }
    zirkoshe_call_together(client, calls, count);
}

/* Returns the first failure. Its rule stays. */
static int show_changes(struct zirkoshe_client *client, const struct changes *changes)
{
    struct zirkoshe_plain_call calls[MOST_OBJECTS];
    unsigned at;

    for (at = 0; at < changes->count; at++)
        calls[at] = call_of(changes->all[at].plane_id, &changes->all[at].after);
    zirkoshe_call_together(client, calls, changes->count);
    for (at = 0; at < changes->count && calls[at].failed == 0; at++)
        ;
    if (at == changes->count)
        return 0;
    take_back(client, changes, calls);
    client->rule = calls[at].rule;
    return calls[at].failed;
}

/* Notes for the older calls what a CRTC shows. */
static void note_crtc(struct commit *commit, uint32_t crtc_id)
{
    const struct crtc_state *crtc = state_of_crtc(&commit->after, crtc_id);
    unsigned count;

    if (crtc->is_active && state_of_primary(&commit->after, crtc_id)->fb_id != 0)
        crtc_is_lit(crtc_id, &crtc->mode, state_connector(&commit->after, crtc_id, &count));
    else
        crtc_is_seen(crtc_id, false);
}

static void note_gamma(struct commit *commit, uint32_t crtc_id)
{
    blob_use(state_of_crtc(&commit->after, crtc_id)->gamma_id);
    blob_drop(state_of_crtc(&commit->before, crtc_id)->gamma_id);
}

/* Modes are used by the state now, and those of before no more. */
static void note(struct commit *commit)
{
    uint32_t at;

    for (at = 0; at < commit->topology->count_crtcs; at++) {
        uint32_t id = commit->topology->crtcs[at];
        uint32_t before = state_of_crtc(&commit->before, id)->mode_id;
        uint32_t after = state_of_crtc(&commit->after, id)->mode_id;

        if (!(commit->crtcs >> at & 1))
            continue;
        if (before != after) {
            blob_use(after);
            blob_drop(before);
        }
        note_gamma(commit, id);
        note_crtc(commit, id);
    }
    state_change(&commit->before, &commit->after);
}

int commit_show(struct commit *commit)
{
    struct changes changes;
    int failed;

    changes.count = 0;
    find_changes(commit, true, &changes);
    find_changes(commit, false, &changes);
    failed = show_changes(&commit->connection->client, &changes);
    if (!failed)
        note(commit);
    return failed;
}
