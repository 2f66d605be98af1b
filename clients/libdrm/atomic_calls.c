/* Answers to atomic commits. */
#include "answers.h"

#include "commits.h"
#include "crtcs.h"
#include "ioctls.h"
#include "late_commits.h"

/* What is wrong with a commit before its objects are looked at. */
static int refuse(const struct connection *connection, const struct drm_mode_atomic *asked)
{
    if (!connection->is_atomic || (asked->flags & ~(uint32_t)DRM_MODE_ATOMIC_FLAGS)
        || asked->reserved != 0 || (asked->flags & DRM_MODE_PAGE_FLIP_ASYNC))
        return -EINVAL;
    return (asked->flags & DRM_MODE_ATOMIC_TEST_ONLY) && (asked->flags & DRM_MODE_PAGE_FLIP_EVENT)
               ? -EINVAL
               : 0;
}

/* The lists of a commit */
struct lists {
    struct caller_list objects, counts, properties, values;
};

static int read_element(const struct caller_list *list, uint32_t at, void *element, size_t size)
{
    if (at >= list->size / size)
        return -EFAULT;
    memcpy(element, list->bytes + at * size, size);
    return 0;
}

/* Reads a property of an object, with its value. */
static int read_property(struct commit *commit, const struct lists *lists, const struct part *part,
                         uint32_t at)
{
    uint32_t property;
    uint64_t value;
    int failed = read_element(&lists->properties, at, &property, sizeof property);

    if (!failed)
        failed = read_element(&lists->values, at, &value, sizeof value);
    return failed ? failed : commit_set(commit, part, property, value);
}

/* Reads the next object with its properties, which begin at `*at`. */
static int read_object(struct commit *commit, const struct lists *lists, uint32_t object,
                       uint32_t *at)
{
    struct part part;
    uint32_t id, count;
    int failed = read_element(&lists->objects, object, &id, sizeof id);

    if (!failed)
        failed = read_element(&lists->counts, object, &count, sizeof count);
    if (!failed)
        failed = commit_add(commit, id, &part);
    for (; !failed && count > 0; count--, ++*at)
        failed = read_property(commit, lists, &part, *at);
    return failed;
}

static int read_objects(struct commit *commit, const struct drm_mode_atomic *asked)
{
    const struct lists lists = {
        caller_list_at(asked->objs_ptr), caller_list_at(asked->count_props_ptr),
        caller_list_at(asked->props_ptr), caller_list_at(asked->prop_values_ptr)};
    uint32_t object, at = 0;
    int failed = 0;

    for (object = 0; !failed && object < asked->count_objs; object++)
        failed = read_object(commit, &lists, object, &at);
    return failed;
}

/* Each CRTC of a commit has an event, if one is requested. Without a CRTC there would be none. */
static int reserve_events(const struct commit *commit)
{
    unsigned count = (unsigned)__builtin_popcountll(commit->crtcs);

    if (!commit->has_event || commit->is_late)
        return 0;
    if (count == 0)
        return -EINVAL;
    return events_have_room(&commit->connection->events, count) ? 0 : -ENOMEM;
}

/* The time at which all CRTCs of the commit have completed their last flips, or 0. */
static int64_t flips_due(const struct commit *commit)
{
    int64_t latest = 0, due;
    uint32_t at;

    for (at = 0; at < commit->topology->count_crtcs; at++) {
        due = commit->crtcs >> at & 1 ? crtc_of(commit->topology->crtcs[at])->flip_due : 0;
        latest = due > latest ? due : latest;
    }
    return latest;
}

/* The fence of a CRTC is signalled when its event is due. */
static void complete_crtc(struct connection *connection, const struct drm_mode_atomic *asked,
                          uint32_t crtc_id, struct fence *fence)
{
    int64_t time = complete_flip(connection, crtc_id,
                                 (asked->flags & DRM_MODE_PAGE_FLIP_EVENT) != 0, asked->user_data);

    if (fence != NULL)
        fence_is_due(fence, time);
}

static void complete(const struct commit *commit, const struct drm_mode_atomic *asked)
{
    uint32_t at;

    for (at = 0; at < commit->topology->count_crtcs; at++) {
        if (commit->crtcs >> at & 1)
            complete_crtc(commit->connection, asked, commit->topology->crtcs[at],
                          commit->fences.made[at]);
    }
}

/* Builds a commit and checks it. */
static int build_commit(struct commit *commit, const struct drm_mode_atomic *asked)
{
    int failed;

    commit->may_set_modes = (asked->flags & DRM_MODE_ATOMIC_ALLOW_MODESET) != 0;
    commit->has_event = (asked->flags & DRM_MODE_PAGE_FLIP_EVENT) != 0;
    failed = read_objects(commit, asked);
    if (!failed)
        failed = reserve_events(commit);
    return failed ? failed : commit_check(commit);
}

static int show(struct commit *commit)
{
    int failed = commit_show(commit);

    if (failed)
        crtcs_are_unsure();
    return failed;
}

/* Carries out a commit that passed the checks, or keeps it until its fences are signalled. `due` is
 * when its CRTCs have completed what they were asked for, or 0. */
static int carry_out_checked(struct commit *commit, const struct drm_mode_atomic *asked,
                             int64_t *due)
{
    bool blocks = !(asked->flags & DRM_MODE_ATOMIC_NONBLOCK);
    struct fence *late = late_commit_of(commit), *pending = commit_pending(commit);
    int failed;

    if (late != NULL)
        return blocks ? wait_and_ask_again(late) : -EBUSY;
    *due = flips_due(commit);
    if (*due > time_now())
        return -EBUSY;
    if (pending != NULL && blocks)
        return wait_and_ask_again(pending);
    failed = commit_make_fences(commit);
    if (failed)
        return failed;
    if (pending != NULL)
        return late_commit_add(commit, asked);
    failed = show(commit);
    if (failed)
        return failed;
    complete(commit, asked);
    *due = flips_due(commit);
    return blocks ? commit_completes(commit, *due) : 0;
}

static int carry_out_commit(struct connection *connection, const struct drm_mode_atomic *asked,
                            int64_t *due)
{
    struct commit commit;
    int failed = refuse(connection, asked);

    *due = 0;
    if (!failed)
        failed = commit_begin(&commit, connection);
    if (failed)
        return failed;
    failed = build_commit(&commit, asked);
    if (!failed && !(asked->flags & DRM_MODE_ATOMIC_TEST_ONLY))
        failed = carry_out_checked(&commit, asked, due);
    commit_drop_fences(&commit);
    return failed;
}

/* What was removed meanwhile isn't shown. The commit completes in any case. */
void carry_out_late(struct connection *connection, const struct late_commit *late)
{
    struct commit commit;
    int failed = commit_begin(&commit, connection);
    uint32_t at;

    commit.is_late = true;
    if (!failed)
        failed = build_commit(&commit, &late->asked);
    if (!failed)
        show(&commit);
    for (at = 0; at < late->count; at++) {
        crtc_of(late->crtcs[at].id)->flip_due = 0;
        complete_crtc(connection, &late->asked, late->crtcs[at].id, late->crtcs[at].fence);
    }
}

/* A commit that does not block is refused while an earlier one is not complete. The caller of one
 * that does waits for that and asks again, and then waits until it is complete itself. */
int answer_atomic(struct connection *connection, void *argument)
{
    const struct drm_mode_atomic *asked = argument;
    bool blocks = !(asked->flags & DRM_MODE_ATOMIC_NONBLOCK);
    int64_t due = 0;
    int failed = permit_master(connection);

    if (!failed)
        failed = carry_out_commit(connection, asked, &due);
    if (failed)
        outcome_drops_fences();
    if (!blocks || due <= time_now() || (failed && failed != -EBUSY))
        return failed;
    if (outcome()->is_awaited)
        return failed;
    outcome()->until = due;
    outcome()->is_again = failed != 0;
    return failed;
}
