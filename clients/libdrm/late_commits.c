/* Commits that wait for fences, at most one for each CRTC. */
#include "late_commits.h"

#include "answers.h"
#include "crtcs.h"
#include "ioctls.h"
#include "proxies.h"

#include <stdlib.h>

static struct late_commit *waiting, *ready;

/* Waits for the next fence that isn't signalled. Without one, the commit can be carried out. */
static void look(struct watch *watch)
{
    struct late_commit *late = (struct late_commit *)watch, **place = &waiting;
    size_t at;

    for (at = 0; at < MOST_OBJECTS; at++) {
        if (late->before[at] != NULL && fence_watch(late->before[at], &late->watch, look))
            return;
    }
    while (*place != late)
        place = &(*place)->next;
    *place = late->next;
    late->next = ready;
    ready = late;
    fences_look_soon();
}

/* Notes the CRTCs, each with the fence that it signals. */
static void set_crtcs(struct late_commit *late, const struct commit *commit)
{
    uint32_t at;

    for (at = 0; at < commit->topology->count_crtcs; at++) {
        if (commit->crtcs >> at & 1) {
            late->crtcs[late->count].id = commit->topology->crtcs[at];
            late->crtcs[late->count++].fence = fence_use(commit->fences.made[at]);
            crtc_of(commit->topology->crtcs[at])->flip_due = INT64_MAX;
        }
    }
}

static void set_fences(struct late_commit *late, const struct commit *commit)
{
    size_t at;

    for (at = 0; at < MOST_OBJECTS; at++)
        late->before[at] = fence_use(commit->fences.before[at]);
}

int late_commit_add(struct commit *commit, const struct drm_mode_atomic *asked)
{
    struct late_commit *made = calloc(1, sizeof *made);

    if (made == NULL)
        return -ENOMEM;
    made->memory = caller_memory_keep();
    made->done = fence_of_crtc(caller_user(), 0);
    if (made->memory == NULL || made->done == NULL) {
        free(made->memory);
        fence_drop(made->done);
        free(made);
        return -ENOMEM;
    }
    made->connection = commit->connection;
    made->asked = *asked;
    set_fences(made, commit);
    set_crtcs(made, commit);
    if (commit->has_event)
        commit->connection->events.reserved += made->count;
    made->next = waiting;
    waiting = made;
    look(&made->watch);
    return 0;
}

static bool has_crtc(const struct late_commit *late, uint32_t crtc_id)
{
    uint32_t at = 0;

    while (at < late->count && late->crtcs[at].id != crtc_id)
        at++;
    return at < late->count;
}

static const struct late_commit *find(const struct late_commit *list, uint32_t crtc_id)
{
    while (list != NULL && !has_crtc(list, crtc_id))
        list = list->next;
    return list;
}

struct fence *late_commit_of_crtc(uint32_t crtc_id)
{
    const struct late_commit *found = find(waiting, crtc_id);

    if (found == NULL)
        found = find(ready, crtc_id);
    return found == NULL ? NULL : found->done;
}

struct fence *late_commit_of(const struct commit *commit)
{
    struct fence *found = NULL;
    uint32_t at;

    for (at = 0; found == NULL && at < commit->topology->count_crtcs; at++) {
        if (commit->crtcs >> at & 1)
            found = late_commit_of_crtc(commit->topology->crtcs[at]);
    }
    return found;
}

int wait_and_ask_again(struct fence *fence)
{
    int fd = proxy_of_fence(fence, "");

    if (fd < 0)
        return fd;
    outcome_has(fd);
    outcome()->is_awaited = outcome()->is_again = true;
    outcome()->until = INT64_MAX;
    return -EBUSY;
}

/* Ends a commit that is in no list. All its fences are signalled, or will be at a blanking. */
static void end(struct late_commit *late)
{
    uint32_t at;

    if (late->asked.flags & DRM_MODE_PAGE_FLIP_EVENT)
        late->connection->events.reserved -= late->count;
    watch_end(&late->watch);
    for (at = 0; at < MOST_OBJECTS; at++) {
        fence_drop(late->before[at]);
        fence_drop(late->crtcs[at].fence);
    }
    fence_signal(late->done);
    fence_drop(late->done);
    free(late->memory);
    free(late);
}

/* Takes a commit of a connection out of a list, or of any (NULL); NULL if there is none. */
static struct late_commit *take(struct late_commit **place, const struct connection *connection)
{
    struct late_commit *found;

    while (*place != NULL && connection != NULL && (*place)->connection != connection)
        place = &(*place)->next;
    found = *place;
    if (found != NULL)
        *place = found->next;
    return found;
}

/* Signals the fences of a commit that is not carried out. */
static void drop(struct late_commit *late)
{
    uint32_t at;

    for (at = 0; at < late->count; at++) {
        crtc_of(late->crtcs[at].id)->flip_due = 0;
        if (late->crtcs[at].fence != NULL)
            fence_signal(late->crtcs[at].fence);
    }
    end(late);
}

void late_commits_end(const struct connection *connection)
{
    struct late_commit *each;

    while ((each = take(&waiting, connection)) != NULL || (each = take(&ready, connection)) != NULL)
        drop(each);
}

bool late_commits_are_ready(void)
{
    return ready != NULL;
}

static void carry_out_one(struct late_commit *late)
{
    struct connection *connection = late->connection;

    connection_use(connection);
    if (connection_hold(connection) == 0) {
        caller_memory_use(late->memory);
        carry_out_late(connection, late);
        end(late);
        connection_let_go(connection, 0);
    } else {
        drop(late);
    }
    connection_release(connection);
}

void late_commits_carry_out(void)
{
    struct late_commit *late;

    while ((late = take(&ready, NULL)) != NULL)
        carry_out_one(late);
}
