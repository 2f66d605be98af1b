// The calls of buffers that pass descriptors or lists, and those that are no call of the kernel.
#include <drm.h>
#include <errno.h>
#include <fcntl.h>
#include <sys/ioctl.h>
#include <unistd.h>

#include "calls.h"
#include "driver_calls.h"

#define MOST_REQUEST 255

static void make_prime_export(struct session *session, const struct line *line,
                              const struct caller *caller)
{
    struct drm_prime_handle prime = {.handle = (uint32_t)line->fields[0],
                                     .flags = DRM_CLOEXEC | DRM_RDWR};
    uint32_t script = (uint32_t)expected_number(line, "number", 0);

    if (make_ioctl(caller, DRM_IOCTL_PRIME_HANDLE_TO_FD, &prime) != 0)
        answer_errno(session);
    else
        answer(session, "number %u",
               keep_descriptor(session, &session->tokens, script, prime.fd, caller->number));
}

// The call returns the handle, and the descriptor the size.
static void make_prime_import(struct session *session, const struct line *line,
                              const struct caller *caller)
{
    struct descriptor *token =
        find_descriptor(session, &session->tokens, (uint32_t)line->fields[0]);
    struct drm_prime_handle prime = {.fd = token ? token->file : -1};

    if (make_ioctl(caller, DRM_IOCTL_PRIME_FD_TO_HANDLE, &prime) != 0)
        answer_errno(session);
    else
        answer(session, "buffer %u %lld", prime.handle, (long long)lseek(prime.fd, 0, SEEK_END));
}

// The exporter's close(2). Another client has no such descriptor.
static void make_token_close(struct session *session, const struct line *line,
                             const struct caller *caller)
{
    struct descriptor *token =
        find_descriptor(session, &session->tokens, (uint32_t)line->fields[0]);

    if (!token || token->owner != caller->number || caller->file < 0) {
        errno = EBADF;
        answer_errno(session);
        return;
    }
    close(token->file);
    token->file = -1;
    unbind_number(&session->tokens, (uint32_t)line->fields[0]);
    answer(session, "done");
}

static void make_list_handles(struct session *session, const struct line *line,
                              const struct caller *caller)
{
    struct zirkoshe_list_handles list = {.from = (uint32_t)line->fields[0]};

    if (!session->device->has_driver_calls) {
        answer(session, "left out: not a call of this driver");
    } else if (make_ioctl(caller, DRM_IOCTL_ZIRKOSHE_LIST_HANDLES, &list) != 0) {
        answer_errno(session);
    } else {
        answer(session, "list");
        answer_numbers(session, list.handles, list.count);
    }
}

static void make_audit(struct session *session, const struct line *line,
                       const struct caller *caller)
{
    (void)line;
    (void)caller;
    answer(session, "left out: no call of a kernel");
}

// A call of this number with a structure of no bytes. A driver's number is the driver's own, and a
// number has eight bits.
static void make_raw(struct session *session, const struct line *line, const struct caller *caller)
{
    uint64_t number = line->fields[0];

    if (number > MOST_REQUEST)
        answer(session, "left out: no number of an ioctl");
    else if (number >= DRM_COMMAND_BASE && number < DRM_COMMAND_END)
        answer(session, "left out: no call of a kernel");
    else if (make_ioctl(caller, _IO(DRM_IOCTL_BASE, (unsigned)number), NULL) != 0)
        answer_errno(session);
    else
        answer(session, "done");
}

const struct special_call buffer_calls[] = {
    {"prime_export", 1, make_prime_export},
    {"prime_import", 1, make_prime_import},
    {"token_close", 1, make_token_close},
    {"list_handles", 1, make_list_handles},
    {"audit", 2, make_audit},
    {"raw", 1, make_raw},
    {NULL, 0, NULL},
};
