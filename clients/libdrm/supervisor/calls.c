/* Answers the system calls that callers wait for. */
#include "supervisor.h"

#include "tree.h"

#include <drm.h>
#include <limits.h>
#include <linux/dma-buf.h>
#include <linux/sync_file.h>
#include <stdlib.h>
#include <sys/ioctl.h>
#include <sys/syscall.h>

/* Resumes the caller with this result, or has the kernel carry out the call. */
static void respond(const struct call *call, int64_t result, uint32_t flags)
{
    struct seccomp_notif_resp response;

    memset(&response, 0, sizeof response);
    response.id = call->notice.id;
    response.flags = flags;
    if (result < 0)
        response.error = (int)result;
    else
        response.val = result;
    /* this fails if the caller was killed */
    ioctl(call->listener, SECCOMP_IOCTL_NOTIF_SEND, &response);
}

static void let_kernel_answer(const struct call *call)
{
    respond(call, 0, SECCOMP_USER_NOTIF_FLAG_CONTINUE);
}

/* Returns the arguments of an opening, from the path on. */
static const __u64 *words_of_opening(const struct seccomp_notif *notice)
{
    /* the first argument of openat is a folder */
    return notice->data.nr == SYS_openat ? &notice->data.args[1] : &notice->data.args[0];
}

static int open_node(const struct call *call)
{
    int flags = (int)words_of_opening(&call->notice)[1], fd;

    if (flags & (O_PATH | O_DIRECTORY))
        return flags & O_PATH ? -EACCES : -ENOTDIR;
    fd = open_for_caller(call->node, flags);
    return fd < 0 ? fd : caller_gets(fd, flags);
}

/* Maps a handle's memory in the caller. */
static void answer_mapping(const struct call *call)
{
    pid_t task = (pid_t)call->notice.pid;
    uint64_t words[6];
    int failed = mapping_begin(task), fd;

    if (failed) {
        respond(call, failed, 0);
        return;
    }
    memcpy(words, call->notice.data.args, sizeof words);
    fd = ask_for_memory((int)words[4], words[5], words[1], &words[5]);
    if (fd >= 0)
        fd = caller_gets(fd, O_CLOEXEC);
    words[4] = (uint64_t)fd;
    mapping_stop(task);
    respond(call, -ENOSYS, 0);
    mapping_end(task, words, fd < 0 ? fd : 0);
}

static void *answer(void *given)
{
    struct call *call = given;
    const __u64 *words = call->notice.data.args;

    answer_for(call);
    if (call->notice.data.nr == SYS_mmap)
        answer_mapping(call);
    else if (call->notice.data.nr == SYS_ioctl)
        respond(call, ask_ioctl((int)words[0], (uint32_t)words[1], words[2]), 0);
    else
        respond(call, open_node(call), 0);
    free(call);
    return NULL;
}

/* Answers in another thread, so that other callers do not wait. */
static void begin_answer(const struct call *call)
{
    struct call *kept = malloc(sizeof *kept);
    pthread_t thread;

    if (kept != NULL) {
        *kept = *call;
        if (pthread_create(&thread, NULL, answer, kept) == 0) {
            pthread_detach(thread);
            return;
        }
        free(kept);
    }
    respond(call, -ENOMEM, 0);
}

/* Opens an entry of the tree that is not a node. */
static int open_for_call(const struct entry *entry, int flags)
{
    int fd = open_entry(entry, flags | O_CLOEXEC);

    return fd < 0 ? fd : caller_gets(fd, flags);
}

/* Returns whether a path is that of a descriptor of a node, which is opened anew. */
static bool is_path_of_node(const char *path, enum node *node)
{
    int fd;

    return names_descriptor(path, caller_now()->process, &fd) && is_caller_node(fd, node);
}

/* Answers an opening. If the path is that of a node, another thread connects to the server. */
static void answer_opening(struct call *call)
{
    const __u64 *words = words_of_opening(&call->notice);
    const struct entry *entry;
    char path[PATH_MAX];

    /* the kernel refuses a bad path, and resolves a relative one */
    if (copy_text_from_caller(path, sizeof path, words[0]) != 0 || path[0] != '/') {
        let_kernel_answer(call);
    } else if (is_path_of_node(path, &call->node)) {
        begin_answer(call);
    } else if (!find_place(AT_FDCWD, path, &entry)) {
        let_kernel_answer(call);
    } else if (entry == NULL) {
        respond(call, -ENOENT, 0);
    } else if (entry->kind == KIND_NODE) {
        call->node = entry->node;
        begin_answer(call);
    } else if (caller_waits()) {
        respond(call, open_for_call(entry, (int)words[1]), 0);
    }
}

/* Returns whether a descriptor of the caller is a PRIME descriptor. */
static bool is_prime(int fd)
{
    char path[48];
    bool is_one;
    int opened;

    name_caller_descriptor(path, sizeof path, fd);
    opened = open(path, O_PATH | O_CLOEXEC);
    is_one = opened >= 0 && is_memory(opened);
    if (opened >= 0)
        close(opened);
    return is_one;
}

/* Answers an ioctl of PRIME descriptors. */
static void answer_request_on_memory(const struct call *call)
{
    const __u64 *words = call->notice.data.args;

    if (is_prime((int)words[0]) && caller_waits())
        respond(call, ask_of_memory((uint32_t)words[1], words[2]), 0);
    else
        let_kernel_answer(call);
}

/* Answers an ioctl of the descriptor of a fence. */
static void answer_request_on_fence(const struct call *call)
{
    if (is_caller_fence((int)call->notice.data.args[0]) && caller_waits())
        begin_answer(call);
    else
        let_kernel_answer(call);
}

/* Answers a call that looks at a file. */
static void answer_look_at_file(const struct call *call)
{
    int result;

    if (caller_waits() && answer_look(&call->notice, &result))
        respond(call, result, 0);
    else
        let_kernel_answer(call);
}

void answer_call(int listener, const struct seccomp_notif *notice)
{
    const __u64 *words = notice->data.args;
    bool is_mapping = notice->data.nr == SYS_mmap;
    struct call call = {listener, *notice, NODE_CARD};

    answer_for(&call);
    if (is_look(notice->data.nr))
        answer_look_at_file(&call);
    else if (notice->data.nr != SYS_ioctl && !is_mapping)
        answer_opening(&call);
    else if (!is_mapping && _IOC_TYPE(words[1]) == DMA_BUF_BASE)
        answer_request_on_memory(&call);
    else if (!is_mapping && _IOC_TYPE(words[1]) == SYNC_IOC_MAGIC)
        answer_request_on_fence(&call);
    else if (is_caller_node((int)words[is_mapping ? 4 : 0], &call.node) && caller_waits())
        begin_answer(&call);
    else
        let_kernel_answer(&call);
}
