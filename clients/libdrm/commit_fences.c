/* The fences of commits. */
#include "commit_fences.h"

#include "answers.h"
#include "commits.h"
#include "ioctls.h"
#include "packets.h"
#include "proxies.h"

int commit_waits_for(struct commit *commit, uint32_t plane, int64_t position)
{
    struct fence *fence = NULL;

    if (commit->is_late)
        return 0;
    if (commit->fences.before[plane] != NULL)
        return -EINVAL;
    if (position == -1)
        return 0;
    if (position >= 0 && position < MOST_ATTACHED)
        fence = fence_of_descriptor(caller_descriptor((uint32_t)position));
    commit->fences.before[plane] = fence_use(fence);
    return fence == NULL ? -EINVAL : 0;
}

int commit_signals_at(struct commit *commit, uint32_t crtc, uint64_t address)
{
    if (address == ADDRESS_IS_WRONG)
        return -EFAULT;
    if (address != 0)
        commit->fences.addresses[crtc] = address;
    return 0;
}

bool commit_signals(const struct commit *commit, uint32_t crtc_id)
{
    uint32_t place = topology_place(commit->topology, crtc_id);

    return place < MOST_OBJECTS && commit->fences.addresses[place] != 0;
}

struct fence *commit_pending(const struct commit *commit)
{
    uint32_t at;

    for (at = 0; at < commit->topology->count_planes; at++) {
        struct fence *fence = commit->fences.before[at];

        if (fence != NULL && !fence_is_signaled(fence))
            return fence;
    }
    return NULL;
}

/* Makes the fence of a CRTC. The front end puts the number of its descriptor at the address. */
static int make_fence(struct commit *commit, uint32_t at)
{
    const int32_t none = -1;
    struct fence *made = fence_of_crtc(caller_user(), commit->topology->crtcs[at]);
    int fd = made == NULL ? -ENOMEM : proxy_of_fence(made, ""), failed;

    commit->fences.made[at] = made;
    if (fd < 0)
        return fd;
    failed = copy_to_caller(commit->fences.addresses[at], &none, sizeof none);
    outcome_has(fd);
    outcome()->fences++;
    return failed;
}

int commit_make_fences(struct commit *commit)
{
    uint32_t at;
    int failed = 0;

    for (at = 0; !failed && at < commit->topology->count_crtcs; at++) {
        if (commit->fences.addresses[at] != 0 && !commit->is_late)
            failed = make_fence(commit, at);
    }
    return failed;
}

void commit_drop_fences(struct commit *commit)
{
    uint32_t at;

    for (at = 0; at < commit->topology->count_planes; at++)
        fence_drop(commit->fences.before[at]);
    for (at = 0; at < commit->topology->count_crtcs; at++)
        fence_drop(commit->fences.made[at]);
}

/* The last of the fences to be signalled, or NULL. */
static struct fence *last_of(const struct commit *commit)
{
    struct fence *last = NULL;
    uint32_t at;

    for (at = 0; at < commit->topology->count_crtcs; at++) {
        struct fence *each = commit->fences.made[at];

        if (each != NULL && (last == NULL || fence_time(each) > fence_time(last)))
            last = each;
    }
    return last;
}

int commit_completes(const struct commit *commit, int64_t due)
{
    struct fence *last = last_of(commit);
    struct outcome *made = outcome();
    int fd = last == NULL ? -1 : proxy_of_completion(last);

    if (last == NULL || fd < 0)
        return last == NULL ? 0 : fd;
    outcome_has(fd);
    /* the one that is waited on is first */
    memmove(made->descriptors + 1, made->descriptors, (made->count - 1) * sizeof fd);
    made->descriptors[0] = fd;
    made->is_awaited = true;
    made->until = due + SECOND;
    return 0;
}
