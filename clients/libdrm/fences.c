/* Fences, and the timer that expires when the first of them is due. */
#include "fences.h"

#include "budgets.h"
#include "events.h"

#include <stdlib.h>
#include <string.h>
#include <sys/timerfd.h>

/* Contexts of fences that are of no CRTC begin here. Ids of CRTCs are smaller. */
#define FIRST_CONTEXT ((uint64_t)1 << 32)
/* As many fences that aren't signalled have different contexts: a device has no more CRTCs. */
#define MOST_PARTS 64

enum kind { OF_ONE, OF_ALL, OF_POINT };
/* The parts of a point */
enum { BEFORE, OWN, PARTS_OF_POINT };

/* A fence that another one waits for */
struct part {
    struct watch watch;
    struct fence *whole, *fence;
};

struct fence {
    enum kind kind;
    unsigned uses;
    uid_t user;
    uint32_t crtc_id;
    uint64_t context, number;
    uint64_t number_before; /* of the point before it, in the same context, or 0 */
    bool is_signaled;
    int64_t time;           /* at which it was signalled, or is due */
    struct watch *watches;  /* what is done then */
    struct fence *next_due; /* of those that are due at a time, or are just signalled */
    uint32_t count, pending;
    struct part parts[];
};

static struct fence *due;
static struct fence *signaled, **last_signaled = &signaled; /* whose watches are still to be run */
static bool is_signaling;
static bool is_soon; /* the timer is to expire at once */
static uint64_t last_context = FIRST_CONTEXT, last_number;
static int timer = -1;

static struct fence *make(uid_t user, enum kind kind, uint32_t count)
{
    struct fence *made =
        budget_take(user, 1) ? calloc(1, sizeof *made + count * sizeof made->parts[0]) : NULL;

    if (made == NULL)
        return NULL;
    made->kind = kind;
    made->uses = 1;
    made->user = user;
    made->count = count;
    return made;
}

struct fence *fence_of_crtc(uid_t user, uint32_t crtc_id)
{
    struct fence *made = make(user, OF_ONE, 0);

    if (made != NULL) {
        made->crtc_id = crtc_id;
        made->context = crtc_id;
        made->number = ++last_number;
    }
    return made;
}

struct fence *fence_signaled_now(uid_t user)
{
    struct fence *made = make(user, OF_ONE, 0);

    if (made != NULL) {
        made->context = ++last_context;
        made->number = 1;
        fence_signal(made);
    }
    return made;
}

struct fence *fence_use(struct fence *fence)
{
    if (fence != NULL)
        fence->uses++;
    return fence;
}

/* Ends the uses of parts, but for the point before, whose own part has another one before it. */
static struct fence *end_parts(struct fence *fence)
{
    struct fence *before = NULL;
    uint32_t at;

    for (at = 0; at < fence->count; at++) {
        watch_end(&fence->parts[at].watch);
        if (fence->kind == OF_POINT && at == BEFORE)
            before = fence->parts[at].fence;
        else
            fence_drop(fence->parts[at].fence);
    }
    return before;
}

void fence_drop(struct fence *fence)
{
    while (fence != NULL && --fence->uses == 0) {
        struct fence *before = end_parts(fence);

        budget_give(fence->user, 1);
        free(fence);
        fence = before;
    }
}

bool fence_is_signaled(const struct fence *fence)
{
    return fence->is_signaled;
}

int64_t fence_time(const struct fence *fence)
{
    return fence->time;
}

static void put_first(struct watch **list, struct watch *watch)
{
    watch->next = *list;
    watch->place = list;
    if (watch->next != NULL)
        watch->next->place = &watch->next;
    *list = watch;
}

bool fence_watch(struct fence *fence, struct watch *watch, void (*run)(struct watch *watch))
{
    if (fence->is_signaled)
        return false;
    watch->run = run;
    put_first(&fence->watches, watch);
    return true;
}

void watch_end(struct watch *watch)
{
    if (watch->place == NULL)
        return;
    *watch->place = watch->next;
    if (watch->next != NULL)
        watch->next->place = watch->place;
    watch->place = NULL;
}

/* In the order in which they began. */
static void run_watches(struct fence *fence)
{
    struct watch *first, *in_order = NULL;

    while ((first = fence->watches) != NULL) {
        watch_end(first);
        put_first(&in_order, first);
    }
    while ((first = in_order) != NULL) {
        watch_end(first);
        first->run(first);
    }
}

/* A fence may signal many others, one after the other: they are not signalled within each other. */
void fence_signal(struct fence *fence)
{
    struct fence *first;

    if (fence->is_signaled)
        return;
    fence->is_signaled = true;
    fence->time = fence->time != 0 && fence->time < time_now() ? fence->time : time_now();
    fence->next_due = NULL;
    *last_signaled = fence_use(fence);
    last_signaled = &fence->next_due;
    if (is_signaling)
        return;
    is_signaling = true;
    while ((first = signaled) != NULL) {
        run_watches(first);
        signaled = first->next_due;
        last_signaled = signaled == NULL ? &signaled : last_signaled;
        fence_drop(first);
    }
    is_signaling = false;
}

/* Lets the timer expire when the first fence is due, or never. */
static void arm(void)
{
    struct itimerspec until = {{0, 0}, {0, 0}};
    const struct fence *each;
    int64_t first = INT64_MAX;

    for (each = due; each != NULL; each = each->next_due)
        first = each->time < first ? each->time : first;
    first = is_soon ? 1 : first;
    if (first != INT64_MAX) {
        until.it_value.tv_sec = (time_t)(first / SECOND);
        until.it_value.tv_nsec = (long)(first % SECOND);
    }
    timerfd_settime(fences_timer(), TFD_TIMER_ABSTIME, &until, NULL);
}

void fence_is_due(struct fence *fence, int64_t time)
{
    if (time <= time_now()) {
        fence_signal(fence);
        return;
    }
    fence->time = time;
    fence->next_due = due;
    due = fence_use(fence);
    arm();
}

/* Signals those that are due at a time, or all of a CRTC. */
static void signal_due(int64_t time, uint32_t crtc_id)
{
    struct fence **place = &due, *each;

    while ((each = *place) != NULL) {
        if (each->time > time && each->crtc_id != crtc_id) {
            place = &each->next_due;
            continue;
        }
        *place = each->next_due;
        fence_signal(each);
        fence_drop(each);
    }
    arm();
}

void fences_signal_due(void)
{
    if (due == NULL && !is_soon)
        return;
    is_soon = false;
    signal_due(time_now(), 0);
}

void fences_look_soon(void)
{
    is_soon = true;
    arm();
}

void fences_hasten(uint32_t crtc_id)
{
    if (due != NULL)
        signal_due(time_now(), crtc_id);
}

int fences_timer(void)
{
    if (timer < 0)
        timer = timerfd_create(CLOCK_MONOTONIC, TFD_CLOEXEC | TFD_NONBLOCK);
    return timer;
}

static void part_is_signaled(struct watch *watch)
{
    struct fence *whole = ((struct part *)watch)->whole;

    if (--whole->pending == 0)
        fence_signal(whole);
}

/* Waits for a part, whose use the whole gets. */
static void set_part(struct fence *whole, uint32_t at, struct fence *fence)
{
    struct part *part = &whole->parts[at];

    part->whole = whole;
    part->fence = fence;
    if (fence != NULL && fence_watch(fence, &part->watch, part_is_signaled))
        whole->pending++;
}

/* The point before one. Those whose own fences are signalled are left out for good, as
 * dma_fence_chain_walk does. */
static struct fence *earlier(struct fence *fence)
{
    struct part *before = &fence->parts[BEFORE];
    struct fence *left_out, *first;

    if (fence->kind != OF_POINT)
        return NULL;
    while ((left_out = before->fence) != NULL) {
        bool is_point = left_out->kind == OF_POINT;

        if (!(is_point ? left_out->parts[OWN].fence : left_out)->is_signaled)
            break;
        first = is_point ? fence_use(left_out->parts[BEFORE].fence) : NULL;
        if (before->watch.place != NULL) {
            watch_end(&before->watch);
            fence->pending--;
        }
        set_part(fence, BEFORE, first);
        fence_drop(left_out);
    }
    if (fence->pending == 0)
        fence_signal(fence);
    return before->fence;
}

/* The fence of a point itself, of which the others are made. */
static struct fence *own_of(struct fence *fence)
{
    return fence->kind == OF_POINT ? fence->parts[OWN].fence : fence;
}

/* Adds fences of the first kind that are not signalled, the latest of each context. */
static uint32_t add_parts(struct fence *fence, struct fence **parts, uint32_t count)
{
    uint32_t at = 0;

    if (fence->kind == OF_ALL) {
        for (at = 0; at < fence->count; at++)
            count = add_parts(fence->parts[at].fence, parts, count);
        return count;
    }
    if (fence->is_signaled)
        return count;
    while (at < count && parts[at]->context != fence->context)
        at++;
    if (at == MOST_PARTS)
        return count;
    if (at == count || parts[at]->number < fence->number)
        parts[at] = fence;
    return at == count ? count + 1 : count;
}

/* As dma_fence_unwrap_merge, a fence that is signalled has no part in it. */
static struct fence *all_of(uid_t user, struct fence *const *parts, uint32_t count)
{
    struct fence *made;
    uint32_t at;

    if (count == 0)
        return fence_signaled_now(user);
    if (count == 1)
        return fence_use(parts[0]);
    made = make(user, OF_ALL, count);
    if (made == NULL)
        return NULL;
    made->context = ++last_context;
    made->number = 1;
    for (at = 0; at < count; at++)
        set_part(made, at, fence_use(parts[at]));
    return made;
}

struct fence *fence_of_two(uid_t user, struct fence *one, struct fence *other)
{
    struct fence *parts[MOST_PARTS], *each;
    uint32_t count = 0;

    for (each = one; each != NULL; each = earlier(each))
        count = add_parts(own_of(each), parts, count);
    for (each = other; each != NULL; each = earlier(each))
        count = add_parts(own_of(each), parts, count);
    return all_of(user, parts, count);
}

struct fence *fence_point(uid_t user, struct fence *before, struct fence *own, uint64_t number)
{
    struct fence *made = make(user, OF_POINT, PARTS_OF_POINT);
    bool continues = before != NULL && before->kind == OF_POINT && number > before->number;

    if (made == NULL)
        return NULL;
    made->context = continues ? before->context : ++last_context;
    made->number_before = continues ? before->number : 0;
    made->number = number;
    if (before != NULL && before->kind == OF_POINT && !continues)
        made->number = before->number;
    set_part(made, BEFORE, before);
    set_part(made, OWN, own);
    earlier(made);
    return made;
}

bool fence_find_point(struct fence *last, uint64_t number, struct fence **found)
{
    struct fence *each = last;

    *found = last;
    if (last == NULL || number == 0)
        return last != NULL;
    if (last->kind != OF_POINT || last->number < number)
        return false;
    while (each != NULL && each->context == last->context && each->number_before >= number)
        each = earlier(each);
    *found = each;
    return true;
}

uint64_t fence_last_point(const struct fence *last)
{
    return last != NULL && last->kind == OF_POINT ? last->number : 0;
}

/* As drm_syncobj_query_ioctl: all but the last of these are not signalled by themselves. */
uint64_t fence_signaled_point(struct fence *last)
{
    struct fence *each, *first = last;

    if (last == NULL || last->kind != OF_POINT)
        return 0;
    for (each = last; each != NULL && each->context == last->context; each = earlier(each))
        first = each;
    return first->is_signaled ? first->number : first->number_before;
}

struct fence_description fence_itself(const struct fence *fence)
{
    return (struct fence_description){fence->crtc_id, fence->context, fence->number,
                                      fence->is_signaled, fence->is_signaled ? fence->time : 0};
}

/* Describes one, or all of which it is made. */
static uint32_t describe(const struct fence *fence, struct fence_description *described,
                         uint32_t count, uint32_t room)
{
    uint32_t at;

    if (fence->kind != OF_ALL) {
        if (count < room)
            described[count] = fence_itself(fence);
        return count + 1;
    }
    for (at = 0; at < fence->count; at++)
        count = describe(fence->parts[at].fence, described, count, room);
    return count;
}

uint32_t fence_describe(struct fence *fence, struct fence_description *described, uint32_t room)
{
    uint32_t count = 0;
    struct fence *each;

    for (each = fence; each != NULL; each = earlier(each))
        count = describe(own_of(each), described, count, room);
    return count;
}
