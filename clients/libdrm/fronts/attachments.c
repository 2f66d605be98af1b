/* The descriptors of requests: those of the caller that come with one, and those that the caller
 * gets. */
#include "libc.h"

#include "exchanges.h"
#include "newer.h"

#include <drm.h>
#include <drm_mode.h>
#include <errno.h>
#include <fcntl.h>
#include <linux/sync_file.h>
#include <string.h>
#include <sys/ioctl.h>
#include <unistd.h>

/* What a request takes for a descriptor */
enum taken { TAKES_ANY, TAKES_FENCE, TAKES_OBJECT_OR_FENCE };

/* Returns whether a descriptor of the caller is open, and represents what a request takes. */
static bool is_taken(int fd, enum taken taken)
{
    int file = fd < 0 ? -1 : caller_file(fd);
    bool is_one;

    if (file < 0)
        return false;
    is_one = taken == TAKES_ANY ? fcntl(file, F_GETFD) >= 0
                                : fence_number(file) != 0
                                      || (taken == TAKES_OBJECT_OR_FENCE && syncobj_number(file));
    caller_file_end(file);
    return is_one;
}

static bool attach(struct sent *sent, int fd, enum taken taken)
{
    if (sent->count == MOST_ATTACHED || !is_taken(fd, taken))
        return false;
    sent->attached[sent->count++] = fd;
    return true;
}

bool is_same(uint32_t request, uint32_t known)
{
    return _IOC_TYPE(request) == _IOC_TYPE(known) && _IOC_NR(request) == _IOC_NR(known);
}

void attach_descriptors(struct sent *sent, const void *argument)
{
    const struct drm_prime_handle *prime = argument;
    const struct drm_syncobj_handle *imported = argument;
    const struct drm_syncobj_eventfd *eventfd = argument;
    const struct sync_merge_data *merged = argument;
    uint32_t request = sent->ask.request;

    if (is_same(request, DRM_IOCTL_PRIME_FD_TO_HANDLE))
        attach(sent, prime->fd, TAKES_ANY);
    else if (is_same(request, DRM_IOCTL_SYNCOBJ_FD_TO_HANDLE))
        attach(sent, imported->fd, TAKES_OBJECT_OR_FENCE);
    else if (is_same(request, DRM_IOCTL_SYNCOBJ_EVENTFD))
        attach(sent, eventfd->fd, TAKES_ANY);
    else if (request == SYNC_IOC_MERGE)
        attach(sent, merged->fd2, TAKES_FENCE);
}

/* The value of IN_FENCE_FD for the display. -1 is no fence. */
static int64_t position_of_fence(struct sent *sent, int64_t value)
{
    if (value == -1)
        return value;
    return value >= 0 && value <= INT32_MAX && attach(sent, (int)value, TAKES_FENCE)
               ? (int64_t)sent->count - 1
               : NOT_ATTACHED;
}

/* The value of OUT_FENCE_PTR for the display. As the core does, it writes -1 there first. */
static uint64_t tried_address(uint64_t address)
{
    const int32_t none = -1;

    return address == 0 || caller_takes(address, &none, sizeof none) == 0 ? address
                                                                          : ADDRESS_IS_WRONG;
}

void attach_fences(struct sent *sent, const uint8_t *properties, uint8_t *values)
{
    size_t count = sent->ask.lists[3].size / sizeof(uint64_t), at;

    for (at = 0; at < count; at++) {
        uint32_t property;
        uint64_t value;

        memcpy(&property, properties + at * sizeof property, sizeof property);
        memcpy(&value, values + at * sizeof value, sizeof value);
        if (property == PROPERTY_IN_FENCE_FD)
            value = (uint64_t)position_of_fence(sent, (int64_t)value);
        else if (property == PROPERTY_OUT_FENCE_PTR)
            value = tried_address(value);
        memcpy(values + at * sizeof value, &value, sizeof value);
    }
}

/* Where a struct has the number of a descriptor that the request made, and its flags */
static const struct place {
    uint32_t request;
    size_t number, flags; /* without flags, it is closed at exec */
} places[] = {
    {DRM_IOCTL_PRIME_HANDLE_TO_FD, offsetof(struct drm_prime_handle, fd),
     offsetof(struct drm_prime_handle, flags)},
    {DRM_IOCTL_MODE_CREATE_LEASE, offsetof(struct drm_mode_create_lease, fd),
     offsetof(struct drm_mode_create_lease, flags)},
    {DRM_IOCTL_SYNCOBJ_HANDLE_TO_FD, offsetof(struct drm_syncobj_handle, fd), 0},
    {SYNC_IOC_MERGE, offsetof(struct sync_merge_data, fence), 0},
};

static const struct place *place_of(uint32_t request)
{
    size_t at;

    for (at = 0; at < sizeof places / sizeof places[0]; at++) {
        if (is_same(request, places[at].request))
            return &places[at];
    }
    return NULL;
}

bool makes_descriptor(uint32_t request)
{
    return place_of(request) != NULL;
}

/* Hands over the descriptor that the struct has the number of. */
static int put_into_struct(struct answer *answer, const struct place *place)
{
    int flags = O_CLOEXEC, number;

    if (place->flags != 0)
        memcpy(&flags, answer->bytes + place->flags, sizeof flags);
    number = caller_gets(answer->descriptors[0], flags);
    memcpy(answer->bytes + place->number, &number, sizeof number);
    return number < 0 ? number : 0;
}

/* Where the first write is that gets the number of a descriptor: each is as long. */
static uint8_t *first_of_fences(const struct answer *answer)
{
    size_t size = sizeof(struct list) + sizeof(int32_t);

    return answer->bytes + answer->length - answer->reply.traced - answer->reply.fences * size;
}

static int put_fences(struct answer *answer, unsigned first)
{
    uint8_t *next = first_of_fences(answer);
    unsigned at;
    int failed = 0;

    for (at = first; at < answer->count; at++) {
        int32_t number = caller_gets(answer->descriptors[at], O_CLOEXEC);

        failed = number < 0 ? number : failed;
        number = number < 0 ? -1 : number;
        memcpy(next + sizeof(struct list), &number, sizeof number);
        next += sizeof(struct list) + sizeof number;
    }
    return failed;
}

int put_descriptors(struct answer *answer, const struct sent *sent)
{
    const struct place *place = place_of(sent->ask.request);
    unsigned first = answer->count - answer->reply.fences;
    int failed = 0;

    if (answer->reply.fences > answer->count)
        return -ENODEV;
    if (first > 0 && place != NULL)
        failed = put_into_struct(answer, place);
    if (answer->reply.fences > 0)
        failed = put_fences(answer, first);
    answer->count = answer->reply.is_awaited ? 1 : 0;
    return failed;
}
