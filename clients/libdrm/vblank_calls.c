/* Answers to requests of vertical blanking, which is made here, by the rules of the core. */
#include "answers.h"

#include "crtcs.h"
#include "ioctls.h"
#include "states.h"

/* how long the core waits for a vertical blanking at most */
#define MOST_WAIT ((int64_t)3 * SECOND)
#define HIGH_CRTC ((unsigned)_DRM_VBLANK_HIGH_CRTC_MASK)
#define KNOWN_TYPES ((unsigned)(_DRM_VBLANK_TYPES_MASK | _DRM_VBLANK_FLAGS_MASK) | HIGH_CRTC)

/* What a request waits for: a vertical blanking of a CRTC */
struct goal {
    uint32_t crtc_id;
    struct blanking blanking;
    struct vblank last; /* as it is asked */
    struct vblank wanted;
};

/* Asks what a CRTC shows. One that is dark doesn't blank. */
static int find_blanking(struct connection *connection, struct goal *goal)
{
    uint32_t fb_id;
    int failed = crtc_look(connection, goal->crtc_id, &fb_id);

    if (failed)
        return failed;
    if (fb_id == 0)
        return -EINVAL;
    goal->blanking = crtc_of(goal->crtc_id)->blanking;
    goal->last = last_vblank(&goal->blanking, time_now());
    return 0;
}

/* The CRTC that a request counts to, among those that the caller sees. */
static int find_crtc(struct connection *connection, unsigned type, uint32_t *crtc_id)
{
    struct zirkoshe_resources resources;
    unsigned place = (type & HIGH_CRTC) >> _DRM_VBLANK_HIGH_CRTC_SHIFT;
    int failed = zirkoshe_drmModeGetResources(&connection->client, &resources);

    if (failed)
        return failed;
    if (place == 0 && (type & _DRM_VBLANK_SECONDARY))
        place = 1;
    if (place >= resources.count_crtcs)
        return -EINVAL;
    *crtc_id = resources.crtcs[place];
    return 0;
}

/* The number that has 32 bits at its end and is nearest to another one. */
static uint64_t widen(uint32_t narrow, uint64_t near)
{
    return near + (uint64_t)(int64_t)(int32_t)(narrow - (uint32_t)near);
}

/* Finds the vertical blanking of a request. If the request is repeated, as after a signal, that
 * is the same one. */
static void find_wanted(struct drm_wait_vblank_request *request, struct goal *goal)
{
    uint64_t last = goal->last.sequence, wanted = widen(request->sequence, last);
    unsigned type = (unsigned)request->type;

    if (type & _DRM_VBLANK_RELATIVE) {
        wanted = last + request->sequence;
        request->sequence = (uint32_t)wanted;
        type &= ~(unsigned)_DRM_VBLANK_RELATIVE;
    }
    if ((type & _DRM_VBLANK_NEXTONMISS) && has_passed(last, wanted)) {
        wanted = last + 1;
        request->sequence = (uint32_t)wanted;
        type &= ~(unsigned)_DRM_VBLANK_NEXTONMISS;
    }
    request->type = (enum drm_vblank_seq_type)type;
    goal->wanted = has_passed(last, wanted) ? goal->last : vblank_of(&goal->blanking, wanted);
}

static int queue(struct connection *connection, uint32_t kind, uint64_t user_data,
                 const struct goal *goal)
{
    if (!events_have_room(&connection->events, 1))
        return -ENOMEM;
    events_add(&connection->events, goal->crtc_id, kind, user_data, goal->wanted.sequence,
               goal->wanted.time);
    return 0;
}

/* What is done of a request while the connection is held. */
static int begin_wait(struct connection *connection, union drm_wait_vblank *wait, struct goal *goal)
{
    unsigned type = (unsigned)wait->request.type;
    int failed;

    if ((type & _DRM_VBLANK_SIGNAL) || (type & ~KNOWN_TYPES))
        return -EINVAL;
    failed = find_crtc(connection, type, &goal->crtc_id);
    if (!failed)
        failed = find_blanking(connection, goal);
    if (failed)
        return failed;
    find_wanted(&wait->request, goal);
    if (!(type & _DRM_VBLANK_EVENT))
        return 0;
    failed = queue(connection, DRM_EVENT_VBLANK, wait->request.signal, goal);
    if (!failed)
        wait->reply.sequence = (uint32_t)goal->wanted.sequence;
    return failed;
}

/* The caller waits for it, but not for ever. If a signal interrupts it, the request as it is now
 * asks for the same one. */
int answer_wait_vblank(struct connection *connection, void *argument)
{
    union drm_wait_vblank *wait = argument;
    int64_t now = time_now(), most = now + MOST_WAIT;
    struct vblank told;
    struct goal goal;
    int failed = begin_wait(connection, wait, &goal);

    if (failed || ((unsigned)wait->request.type & _DRM_VBLANK_EVENT))
        return failed;
    told = goal.wanted.time <= now ? goal.last : goal.wanted;
    if (goal.wanted.time > now)
        outcome()->until = goal.wanted.time < most ? goal.wanted.time : most;
    if (goal.wanted.time > most) {
        told = last_vblank(&goal.blanking, most);
        failed = -EBUSY;
    }
    wait->reply.sequence = (uint32_t)told.sequence;
    wait->reply.tval_sec = (long)(told.time / SECOND);
    wait->reply.tval_usec = (long)(told.time % SECOND / 1000);
    return failed;
}

int answer_get_sequence(struct connection *connection, void *argument)
{
    struct drm_crtc_get_sequence *asked = argument;
    struct goal goal = {.crtc_id = asked->crtc_id};
    int failed = find_blanking(connection, &goal);

    if (failed)
        return failed;
    asked->active = 1;
    asked->sequence = goal.last.sequence;
    asked->sequence_ns = goal.last.time;
    return 0;
}

int answer_queue_sequence(struct connection *connection, void *argument)
{
    struct drm_crtc_queue_sequence *asked = argument;
    struct goal goal = {.crtc_id = asked->crtc_id};
    uint64_t wanted = asked->sequence;
    bool is_known =
        (asked->flags & ~(uint32_t)(DRM_CRTC_SEQUENCE_RELATIVE | DRM_CRTC_SEQUENCE_NEXT_ON_MISS))
        == 0;
    int failed = find_blanking(connection, &goal);

    /* the core looks the CRTC up, then at the flags, and then whether it blanks */
    if (!is_known && (!failed || failed == -EINVAL))
        return -EINVAL;
    if (failed)
        return failed;
    if (asked->flags & DRM_CRTC_SEQUENCE_RELATIVE)
        wanted += goal.last.sequence;
    if ((asked->flags & DRM_CRTC_SEQUENCE_NEXT_ON_MISS) && has_passed(goal.last.sequence, wanted))
        wanted = goal.last.sequence + 1;
    goal.wanted =
        has_passed(goal.last.sequence, wanted) ? goal.last : vblank_of(&goal.blanking, wanted);
    failed = queue(connection, DRM_EVENT_CRTC_SEQUENCE, asked->user_data, &goal);
    if (!failed)
        asked->sequence = goal.wanted.sequence;
    return failed;
}
