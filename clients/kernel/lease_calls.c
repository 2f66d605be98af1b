// The calls of leases, which have lists.
#include <drm.h>
#include <fcntl.h>
#include <stdlib.h>
#include <sys/ioctl.h>

#include "calls.h"

#define LISTED 512

static void make_create_lease(struct session *session, const struct line *line,
                              const struct caller *caller)
{
    uint32_t ids[MOST_FIELDS];
    uint32_t script = (uint32_t)expected_number(line, "lease", 1);
    struct drm_mode_create_lease create = {
        .object_ids = (uintptr_t)ids, .object_count = line->count, .flags = O_CLOEXEC};
    unsigned i;

    for (i = 0; i < line->count; i++)
        ids[i] = kernel_object(session, (uint32_t)line->fields[i]);
    if (make_ioctl(caller, DRM_IOCTL_MODE_CREATE_LEASE, &create) != 0)
        answer_errno(session);
    else
        answer(session, "lease %u %u", create.lessee_id,
               keep_descriptor(session, &session->leases, script, (int)create.fd, caller->number));
}

static void make_list_lessees(struct session *session, const struct line *line,
                              const struct caller *caller)
{
    uint32_t lessees[LISTED];
    struct drm_mode_list_lessees list = {LISTED, 0, (uintptr_t)lessees};

    (void)line;
    if (make_ioctl(caller, DRM_IOCTL_MODE_LIST_LESSEES, &list) != 0) {
        answer_errno(session);
        return;
    }
    answer(session, "list");
    answer_numbers(session, lessees, list.count_lessees);
}

static int compare(const void *one, const void *other)
{
    uint32_t first = *(const uint32_t *)one, second = *(const uint32_t *)other;

    return (first > second) - (first < second);
}

// The kernel lists by its own ids. Those that are bound are listed by the script's.
static void answer_sorted(struct session *session, const uint32_t *ids, unsigned count)
{
    uint32_t bound[LISTED], script;
    unsigned kept = 0, i;

    for (i = 0; i < count && i < LISTED; i++) {
        if (find_script_number(&session->objects, ids[i], &script))
            bound[kept++] = script;
    }
    qsort(bound, kept, sizeof(bound[0]), compare);
    answer(session, "list");
    answer_numbers(session, bound, kept);
    answer(session, kept < count ? ",other" : "");
}

static void make_get_lease(struct session *session, const struct line *line,
                           const struct caller *caller)
{
    uint32_t ids[LISTED];
    struct drm_mode_get_lease list = {LISTED, 0, (uintptr_t)ids};

    (void)line;
    if (make_ioctl(caller, DRM_IOCTL_MODE_GET_LEASE, &list) != 0) {
        answer_errno(session);
        return;
    }
    answer_sorted(session, ids, list.count_objects);
}

const struct special_call lease_calls[] = {
    {"create_lease", UINT32_MAX, make_create_lease},
    {"list_lessees", 0, make_list_lessees},
    {"get_lease", 0, make_get_lease},
    {NULL, 0, NULL},
};
