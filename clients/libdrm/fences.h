/* Fences: each is signalled once, at a vertical blanking, or when others are.
 *
 * Three kinds: one of a CRTC, or one that was signalled by itself; all of several; and a point of a
 * timeline, which is signalled when its own fence is, and the points before it. */
#ifndef ZIRKOSHE_LIBDRM_FENCES_H
#define ZIRKOSHE_LIBDRM_FENCES_H

#include <stdbool.h>
#include <stddef.h>
#include <stdint.h>
#include <sys/types.h>

struct fence;

/* What is done when a fence is signalled. Who watches a fence uses it. */
struct watch {
    struct watch *next, **place; /* of those of a fence; it has no place if it watches none */
    void (*run)(struct watch *watch);
};

/* What is reported of a fence of the first kind */
struct fence_description {
    uint32_t crtc_id;         /* 0 if it isn't of a CRTC */
    uint64_t context, number; /* the later one of a context has the higher number */
    bool is_signaled;
    int64_t time; /* at which it was signalled */
};

/* Returns a fence of a CRTC, or one that is signalled now. NULL if the user has no budget left, or
 * there is no memory. The caller has a use of it. */
struct fence *fence_of_crtc(uid_t user, uint32_t crtc_id);
struct fence *fence_signaled_now(uid_t user);

/* Returns what is signalled when all of two fences are, or when it is and the points before; the
 * latter takes the uses. Without memory, NULL. */
struct fence *fence_of_two(uid_t user, struct fence *one, struct fence *other);
struct fence *fence_point(uid_t user, struct fence *before, struct fence *own, uint64_t number);

/* Begins or ends a use, of a fence or of none. */
struct fence *fence_use(struct fence *fence);
void fence_drop(struct fence *fence);

/* Signals a fence; has it signalled at a time. */
void fence_signal(struct fence *fence);
void fence_is_due(struct fence *fence, int64_t time);
bool fence_is_signaled(const struct fence *fence);

/* The time at which it was signalled or is due, or 0. */
int64_t fence_time(const struct fence *fence);

/* Watches a fence until it is signalled; false if it is. Ends that. */
bool fence_watch(struct fence *fence, struct watch *watch, void (*run)(struct watch *watch));
void watch_end(struct watch *watch);

/* Whether a timeline that ends with this fence has a point of this number; then what is signalled
 * with it, which may be NULL: it was signalled long ago. The fence of number 0 is the last one. */
bool fence_find_point(struct fence *last, uint64_t number, struct fence **found);

/* The number of the last point of a timeline, and of the last that is signalled; 0 if it is none.
 */
uint64_t fence_last_point(const struct fence *last);
uint64_t fence_signaled_point(struct fence *last);

/* Describes fences of the first kind of which one is made, as many as there is room for. Returns
 * how many there are. */
uint32_t fence_describe(struct fence *fence, struct fence_description *described, uint32_t room);

/* The number of a fence itself in its context */
struct fence_description fence_itself(const struct fence *fence);

/* Signals those that are due; all that a CRTC is to signal, since it became dark. A descriptor that
 * is readable when the first is due, or -1. */
void fences_signal_due(void);
void fences_hasten(uint32_t crtc_id);
int fences_timer(void);

/* Has that descriptor be readable now. */
void fences_look_soon(void);

#endif
