/* Asking the display: a packet on the descriptor of a node, and its answer on a socket of the
 * thread. */
#include "libc.h"

#include "exchanges.h"

#include <drm.h>
#include <drm_mode.h>
#include <errno.h>
#include <fcntl.h>
#include <linux/dma-buf.h>
#include <pthread.h>
#include <signal.h>
#include <stdlib.h>
#include <string.h>
#include <sys/ioctl.h>
#include <sys/mman.h>
#include <sys/socket.h>
#include <time.h>
#include <unistd.h>

#define MOST_WRITES 64
/* Entries of a table */
#define MOST_GAMMA 256
/* Handles of a wait */
#define MOST_HANDLES 16384
/* Bytes of an answer that comes later */
#define MOST_LATE 64
/* Objects of a commit; each may be in it several times */
#define MOST_COMMITTED 1024
#define SECOND 1000000000
/* How long a commit waits for earlier ones at most, as the core does for each of them */
#define MOST_WAIT ((int64_t)10 * SECOND)

static uint64_t cookie_of(int fd)
{
    uint64_t cookie = 0;
    socklen_t size = sizeof cookie;

    return getsockopt(fd, SOL_SOCKET, SO_COOKIE, &cookie, &size) == 0 ? cookie : 0;
}

bool channel_is_there(const struct channel *channel)
{
    return channel->fd >= 0 && channel->process == getpid()
           && cookie_of(channel->fd) == channel->cookie;
}

void channel_end(struct channel *channel)
{
    if (channel->fd >= 0 && cookie_of(channel->fd) == channel->cookie)
        close(channel->fd);
    channel->fd = -1;
    channel->number = 0;
}

/* Keeps a descriptor out of the program's way. */
static int hide(int fd)
{
    int hidden = fcntl(fd, F_DUPFD_CLOEXEC, LEAST_HIDDEN);

    if (hidden < 0)
        return fd;
    close(fd);
    return hidden;
}

bool channel_make(struct channel *channel, int *other)
{
    int ends[2];

    channel_end(channel);
    if (socketpair(AF_UNIX, SOCK_SEQPACKET | SOCK_CLOEXEC, 0, ends) != 0)
        return false;
    channel->fd = hide(ends[0]);
    channel->cookie = cookie_of(channel->fd);
    channel->process = getpid();
    *other = ends[1];
    return true;
}

static int error_of_sending(void)
{
    return errno == EPIPE || errno == ECONNRESET ? -ENODEV : errno == EMSGSIZE ? -ENOMEM : -errno;
}

/* Sends a packet with the files that are attached, on a socket. */
static int send_packet(int fd, const struct sent *sent, const int *files)
{
    int descriptors[MOST_ATTACHED + 2];
    size_t count = 0, length;
    union {
        struct cmsghdr head;
        char room[CMSG_SPACE(sizeof descriptors)];
    } control;
    struct iovec part = {sent->channel->bytes, sent->length};
    struct msghdr message = {.msg_iov = &part, .msg_iovlen = 1};

    if (sent->other >= 0)
        descriptors[count++] = sent->other;
    if (sent->count > 0)
        memcpy(descriptors + count, files, sent->count * sizeof *files);
    count += sent->count;
    if (sent->aside >= 0)
        descriptors[count++] = sent->aside;
    length = count * sizeof *descriptors;
    if (length > 0) {
        memset(&control, 0, CMSG_SPACE(length));
        message.msg_control = &control;
        message.msg_controllen = CMSG_SPACE(length);
        control.head.cmsg_level = SOL_SOCKET;
        control.head.cmsg_type = SCM_RIGHTS;
        control.head.cmsg_len = CMSG_LEN(length);
        memcpy(CMSG_DATA(&control.head), descriptors, length);
    }
    return sendmsg(fd, &message, MSG_NOSIGNAL | MSG_DONTWAIT) < 0 ? error_of_sending() : 0;
}

/* Receives a packet with descriptors. Returns its length, or a negative errno: -EFAULT if the
 * struct can't be written to. */
static ssize_t receive(struct channel *channel, struct answer *answer)
{
    union {
        struct cmsghdr head;
        char room[CMSG_SPACE(sizeof answer->descriptors)];
    } control;
    size_t size = answer->argument.iov_len;
    struct iovec parts[] = {{&answer->reply, sizeof answer->reply},
                            answer->argument,
                            {channel->bytes + size, sizeof channel->bytes - size}};
    struct msghdr message = {.msg_iov = parts,
                             .msg_iovlen = sizeof parts / sizeof parts[0],
                             .msg_control = &control,
                             .msg_controllen = sizeof control};
    ssize_t length = recvmsg(channel->fd, &message, MSG_CMSG_CLOEXEC);
    const struct cmsghdr *head = length > 0 ? CMSG_FIRSTHDR(&message) : NULL;

    answer->count = 0;
    if (head != NULL && head->cmsg_type == SCM_RIGHTS) {
        answer->count = (unsigned)((head->cmsg_len - CMSG_LEN(0)) / sizeof(int));
        memcpy(answer->descriptors, CMSG_DATA(head), answer->count * sizeof(int));
    }
    return length < 0 ? -errno : length;
}

static void close_descriptors(struct answer *answer)
{
    while (answer->count > 0)
        close(answer->descriptors[--answer->count]);
}

/* Takes the answer to the last packet. Those of earlier ones, which nothing waited for, are left
 * out. */
static int take_answer(struct channel *channel, struct answer *answer)
{
    ssize_t length = -EINTR;

    memset(&answer->reply, 0, sizeof answer->reply);
    while (length == -EINTR || answer->reply.tag != channel->tag) {
        length = receive(channel, answer);
        if (length == -EINTR)
            continue;
        if (length < (ssize_t)sizeof answer->reply)
            return length == -EFAULT ? -EFAULT : -ENODEV;
        if (answer->reply.tag != channel->tag)
            close_descriptors(answer);
    }
    answer->bytes = channel->bytes;
    answer->length = (size_t)length - sizeof answer->reply;
    if (answer->count == answer->reply.descriptors)
        return 0;
    close_descriptors(answer);
    return -EMFILE;
}

/* Sends a packet on a descriptor of the caller's, with those that are attached. */
static int send_for_caller(int fd, const struct sent *sent)
{
    int file = caller_file(fd), files[MOST_ATTACHED], failed = file < 0 ? file : 0;
    unsigned count = 0;

    while (!failed && count < sent->count) {
        files[count] = caller_file(sent->attached[count]);
        failed = files[count] < 0 ? files[count] : 0;
        count += !failed;
    }
    if (!failed)
        failed = send_packet(file, sent, files);
    while (count > 0)
        caller_file_end(files[--count]);
    if (file >= 0)
        caller_file_end(file);
    return failed;
}

/* Sends a packet on a descriptor of the caller's, or on a socket of the front end, as soon as that
 * has room. */
static int send_at_last(struct sent *sent, int fd, bool is_callers)
{
    int failed;

    for (;;) {
        failed = is_callers ? send_for_caller(fd, sent) : send_packet(fd, sent, NULL);
        if (failed != -EAGAIN && failed != -EINTR)
            return failed;
        poll(NULL, 0, 1);
    }
}

static void close_other(struct sent *sent)
{
    if (sent->other >= 0)
        close(sent->other);
    sent->other = -1;
}

/* Sends a packet on a descriptor of the caller's, or on a socket of the front end, and takes the
 * answer. Returns 0, or a negative errno if there is none. */
static int exchange(struct sent *sent, int fd, bool is_callers, struct answer *answer)
{
    const struct caller *caller = caller_now();
    struct channel *channel = sent->channel;
    int failed;

    sent->ask.form = PACKET_FORM;
    sent->ask.channel = channel->number;
    sent->ask.tag = ++channel->tag;
    sent->ask.flags |= sent->other >= 0 ? HAS_CHANNEL : 0;
    if (caller != NULL) {
        sent->ask.process = caller->process;
        sent->ask.user = caller->user;
    }
    memcpy(channel->bytes, &sent->ask, sizeof sent->ask);
    failed = send_at_last(sent, fd, is_callers);
    if (failed)
        return failed;
    /* the display alone has the other end from now on, so that its end is seen */
    close_other(sent);
    failed = take_answer(channel, answer);
    if (failed != -EFAULT)
        channel->number = answer->reply.channel;
    return failed;
}

/* A socket that the display doesn't have is of no use. */
static void end_sent(struct sent *sent)
{
    close_other(sent);
    if (sent->aside >= 0)
        close(sent->aside);
    if (sent->channel->number == 0)
        channel_end(sent->channel);
}

/* Begins a packet on a thread's socket for answers, which is taken until end_packet. */
static int begin_packet(struct sent *sent, const struct ask *ask)
{
    *sent = (struct sent){.ask = *ask, .length = sizeof *ask, .other = -1, .aside = -1};
    sent->channel = channel_take(&sent->other);
    return sent->channel == NULL ? -errno : 0;
}

static void end_packet(struct sent *sent)
{
    end_sent(sent);
    channel_let(sent->channel);
}

int channel_note(struct channel *channel, int other, int way)
{
    struct sent sent = {.channel = channel,
                        .ask = {.kind = ASK_NOTHING},
                        .length = sizeof sent.ask,
                        .other = other,
                        .aside = -1};
    struct answer answer = {.argument = {NULL, 0}};
    int failed = exchange(&sent, way, false, &answer);

    end_sent(&sent);
    return failed;
}

/* Asks for a descriptor. */
static int ask_for_descriptor(const struct ask *ask, int fd, bool is_callers, uint64_t *place)
{
    struct answer answer = {.argument = {NULL, 0}};
    struct sent sent;
    int failed = begin_packet(&sent, ask);

    if (failed)
        return failed;
    failed = exchange(&sent, fd, is_callers, &answer);
    end_packet(&sent);
    if (failed)
        return failed;
    *place = answer.reply.place;
    if (answer.reply.result != 0 || answer.count == 0)
        return answer.reply.result != 0 ? answer.reply.result : -ENODEV;
    return answer.descriptors[0];
}

int ask_to_open(int way, enum node node, int flags)
{
    const char *path = node_path(node), *root = node_path(NODE_ROOT);
    /* a program whose card is the root socket opens that */
    bool is_root = path != NULL && root != NULL && strcmp(path, root) == 0;
    const struct ask ask = {.kind = ASK_OPEN,
                            .request = is_root ? NODE_ROOT : node,
                            .open_flags = (uint64_t)(unsigned)flags};
    uint64_t place;

    return ask_for_descriptor(&ask, way, false, &place);
}

int ask_for_memory(int fd, uint64_t offset, uint64_t length, uint64_t *place)
{
    const struct ask ask = {.kind = ASK_MAP, .offset = offset, .length = length};

    return ask_for_descriptor(&ask, fd, true, place);
}

static uint32_t least(uint32_t one, uint32_t other)
{
    return one < other ? one : other;
}

static struct list list_of(uint64_t address, uint64_t count, size_t size)
{
    return (struct list){address, address == 0 ? 0 : count * size};
}

/* A commit has as many properties as its objects together. An object more than a device has is
 * unknown, and what follows it is not looked at. */
static int find_lists_of_commit(struct ask *ask, const struct drm_mode_atomic *commit)
{
    uint32_t counts[MOST_COMMITTED], at, objects = least(commit->count_objs, MOST_COMMITTED);
    uint64_t count = 0;

    if (caller_reads(counts, commit->count_props_ptr, objects * sizeof *counts) != 0)
        return -EFAULT;
    for (at = 0; at < objects; at++)
        count += counts[at];
    ask->lists[0] = list_of(commit->objs_ptr, objects, sizeof(uint32_t));
    ask->lists[1] = list_of(commit->count_props_ptr, objects, sizeof(uint32_t));
    ask->lists[2] = list_of(commit->props_ptr, count, sizeof(uint32_t));
    ask->lists[3] = list_of(commit->prop_values_ptr, count, sizeof(uint64_t));
    return 0;
}

/* Where a struct has the address of a list that a request reads, and how many elements it has. A
 * list of more than the most is refused, and not read. */
struct place_of_list {
    size_t address, count, size;
    uint32_t most;
};

#define LIST(type, address, count, size, most)                                                     \
    {                                                                                              \
        offsetof(struct type, address), offsetof(struct type, count), size, most                   \
    }
#define GAMMA(color) LIST(drm_mode_crtc_lut, color, gamma_size, sizeof(uint16_t), MOST_GAMMA)
#define HANDLES(type) LIST(type, handles, count_handles, sizeof(uint32_t), MOST_HANDLES)
#define POINTS(type) LIST(type, points, count_handles, sizeof(uint64_t), MOST_HANDLES)

static const struct {
    uint32_t request;
    struct place_of_list lists[3];
} readers[] = {
    {DRM_IOCTL_MODE_SETCRTC,
     {LIST(drm_mode_crtc, set_connectors_ptr, count_connectors, sizeof(uint32_t), 1)}},
    {DRM_IOCTL_MODE_CREATEPROPBLOB, {LIST(drm_mode_create_blob, data, length, 1, UINT32_MAX)}},
    {DRM_IOCTL_MODE_CREATE_LEASE,
     {LIST(drm_mode_create_lease, object_ids, object_count, sizeof(uint32_t), UINT32_MAX)}},
    {DRM_IOCTL_MODE_DIRTYFB,
     {LIST(drm_mode_fb_dirty_cmd, clips_ptr, num_clips, sizeof(struct drm_clip_rect),
           DRM_MODE_FB_DIRTY_MAX_CLIPS)}},
    {DRM_IOCTL_MODE_SETGAMMA, {GAMMA(red), GAMMA(green), GAMMA(blue)}},
    {DRM_IOCTL_SYNCOBJ_WAIT, {HANDLES(drm_syncobj_wait)}},
    {DRM_IOCTL_SYNCOBJ_TIMELINE_WAIT,
     {HANDLES(drm_syncobj_timeline_wait), POINTS(drm_syncobj_timeline_wait)}},
    {DRM_IOCTL_SYNCOBJ_RESET, {HANDLES(drm_syncobj_array)}},
    {DRM_IOCTL_SYNCOBJ_SIGNAL, {HANDLES(drm_syncobj_array)}},
    {DRM_IOCTL_SYNCOBJ_QUERY, {HANDLES(drm_syncobj_timeline_array)}},
    {DRM_IOCTL_SYNCOBJ_TIMELINE_SIGNAL,
     {HANDLES(drm_syncobj_timeline_array), POINTS(drm_syncobj_timeline_array)}},
};

/* A struct that is shorter has no list. */
static struct list find_list(const uint8_t *argument, size_t size,
                             const struct place_of_list *place)
{
    uint64_t address = 0;
    uint32_t count = 0;

    if (place->address + sizeof address <= size)
        memcpy(&address, argument + place->address, sizeof address);
    if (place->count + sizeof count <= size)
        memcpy(&count, argument + place->count, sizeof count);
    return list_of(address, count <= place->most ? count : 0, place->size);
}

/* The lists that a request reads. What it writes is in the answer. */
static int find_lists(struct ask *ask, const uint8_t *argument)
{
    size_t at, list;

    if (ask->request == DRM_IOCTL_MODE_ATOMIC)
        return find_lists_of_commit(ask, (const void *)argument);
    for (at = 0; at < sizeof readers / sizeof readers[0]; at++) {
        if (!is_same(ask->request, readers[at].request))
            continue;
        for (list = 0; list < 3 && readers[at].lists[list].size > 0; list++)
            ask->lists[list] =
                find_list(argument, _IOC_SIZE(ask->request), &readers[at].lists[list]);
    }
    return 0;
}

/* Maps a new file for long lists. Returns NULL if there is no memory. */
static uint8_t *map_aside(struct sent *sent, size_t length)
{
    void *mapped = MAP_FAILED;

    sent->aside = length > MOST_LONG ? -1 : memfd_create("zirkoshe-lists", MFD_CLOEXEC);
    if (sent->aside >= 0 && ftruncate(sent->aside, (off_t)length) == 0)
        mapped = REAL(mmap)(NULL, length, PROT_WRITE, MAP_SHARED, sent->aside, 0);
    sent->ask.flags |= HAS_LISTS;
    return mapped == MAP_FAILED ? NULL : mapped;
}

/* Adds the lists to the packet, or puts long ones into a file. */
static int add_lists(struct sent *sent)
{
    const struct list *lists = sent->ask.lists;
    struct iovec here[MOST_LISTS], there[MOST_LISTS];
    uint8_t *place = sent->channel->bytes + sent->length, *next;
    size_t length = 0, at;
    int failed;

    for (at = 0; at < MOST_LISTS; at++)
        length += lists[at].size;
    if (length > MOST_INLINE)
        place = map_aside(sent, length);
    else
        sent->length += length;
    if (place == NULL)
        return -ENOMEM;
    for (at = 0, next = place; at < MOST_LISTS; next += lists[at++].size) {
        here[at] = (struct iovec){next, lists[at].size};
        there[at] = (struct iovec){(void *)(uintptr_t)lists[at].address, lists[at].size};
    }
    failed = length == 0 ? 0 : caller_reads_all(here, there, MOST_LISTS);
    if (!failed && sent->ask.request == DRM_IOCTL_MODE_ATOMIC)
        attach_fences(sent, here[2].iov_base, here[3].iov_base);
    if (length > MOST_INLINE)
        munmap(place, length);
    return failed;
}

/* Gathers what a request sends: its struct and its lists. */
static int gather(struct sent *sent, uint64_t address)
{
    uint8_t *argument = sent->channel->bytes + sent->length;
    uint32_t size = _IOC_SIZE(sent->ask.request);
    int failed = caller_reads(argument, address, size);

    sent->length += size;
    if (!failed)
        failed = find_lists(&sent->ask, argument);
    if (!failed)
        attach_descriptors(sent, argument);
    return failed ? failed : add_lists(sent);
}

/* Writes a line of the trace. If it has no reader, the signal of the broken pipe is taken back. */
static void trace(const uint8_t *line, size_t length)
{
    const struct timespec at_once = {0, 0};
    sigset_t broken, pending;

    sigemptyset(&broken);
    sigaddset(&broken, SIGPIPE);
    if (sigpending(&pending) != 0)
        return;
    if (write(STDERR_FILENO, line, length) < 0 && errno == EPIPE && !sigismember(&pending, SIGPIPE))
        sigtimedwait(&broken, NULL, &at_once);
}

/* Writes the struct, if that isn't in its place yet, and what else the answer has for the caller's
 * memory. Then comes the line of the trace. */
static int take_writes(const struct answer *answer, uint64_t address, size_t size)
{
    struct iovec here[1 + MOST_WRITES], there[1 + MOST_WRITES];
    const uint8_t *next = answer->bytes + answer->reply.size;
    const uint8_t *end = answer->bytes + answer->length;
    uint32_t at, count = least(answer->reply.writes, MOST_WRITES);
    struct list list;

    here[0] = (struct iovec){answer->bytes, size};
    there[0] = (struct iovec){(void *)(uintptr_t)address, size};
    for (at = 1; at <= count; at++) {
        memcpy(&list, next, sizeof list);
        next += sizeof list;
        here[at] = (struct iovec){(void *)(uintptr_t)next, list.size};
        there[at] = (struct iovec){(void *)(uintptr_t)list.address, list.size};
        next += list.size;
    }
    if (answer->reply.traced > 0 && answer->reply.traced <= (size_t)(end - next))
        trace(next, answer->reply.traced);
    return caller_takes_all(here, there, count + 1);
}

/* Maps a long answer. */
static int find_long(struct answer *answer)
{
    int file = answer->descriptors[0];
    off_t length = lseek(file, 0, SEEK_END);
    void *bytes = length <= 0 ? MAP_FAILED
                              : REAL(mmap)(NULL, (size_t)length, PROT_READ | PROT_WRITE,
                                           MAP_PRIVATE, file, 0);

    close_descriptors(answer);
    if (bytes == MAP_FAILED)
        return -ENOMEM;
    answer->bytes = bytes;
    answer->length = (size_t)length;
    return 0;
}

/* The place of the struct of an answer. A number of a descriptor is put into it here. */
static struct iovec place_of_struct(const struct sent *sent, uint64_t address)
{
    uint32_t request = sent->ask.request;
    bool is_direct = caller_now() == NULL && (request & IOC_OUT) && !makes_descriptor(request);

    return (struct iovec){is_direct ? (void *)(uintptr_t)address : sent->channel->bytes,
                          _IOC_SIZE(request)};
}

/* What an answer has for the caller. */
static int take(struct answer *answer, const struct sent *sent, uint64_t address)
{
    uint32_t size = _IOC_SIZE(sent->ask.request);
    bool is_written = !(sent->ask.request & IOC_OUT)
                      || (!answer->reply.is_long && answer->argument.iov_base != answer->bytes);
    int failed = answer->reply.is_long ? find_long(answer) : 0, copied;

    if (failed || answer->reply.size != size || answer->length < size)
        return failed ? failed : answer->reply.result;
    failed = put_descriptors(answer, sent);
    copied = take_writes(answer, address, is_written ? 0 : size);
    if (answer->reply.is_long)
        munmap(answer->bytes, answer->length);
    return failed ? failed : copied ? copied : answer->reply.result;
}

static uint32_t tracing(void)
{
    const char *wanted = getenv("DRM_SERVER_TRACE");

    return wanted == NULL || wanted[0] == '\0' ? 0
           : strcmp(wanted, "all") == 0        ? TRACES_ALL
                                               : TRACES_FAILURES;
}

/* Asks once. `reply` says whether the caller then waits, and on which descriptor, or on none (-1).
 */
static int ask_once(int fd, uint32_t request, uint64_t address, struct reply *reply, int *awaited)
{
    const struct ask ask = {.kind = ASK_IOCTL, .request = request, .flags = tracing()};
    struct answer answer;
    struct sent sent;
    int failed = begin_packet(&sent, &ask);

    memset(reply, 0, sizeof *reply);
    *awaited = -1;
    if (failed)
        return failed;
    failed = gather(&sent, address);
    answer.argument = place_of_struct(&sent, address);
    if (!failed)
        failed = exchange(&sent, fd, true, &answer);
    if (!failed) {
        failed = take(&answer, &sent, address);
        *reply = answer.reply;
        if (reply->is_awaited && answer.count == 1)
            *awaited = hide(answer.descriptors[--answer.count]);
        close_descriptors(&answer);
    }
    end_packet(&sent);
    return failed;
}

int ask_of_memory(uint32_t request, uint64_t address)
{
    struct dma_buf_sync sync = {0};

    if (request != DMA_BUF_IOCTL_SYNC)
        return -ENOTTY;
    if (caller_reads(&sync, address, sizeof sync) != 0)
        return -EFAULT;
    return sync.flags & ~(__u64)DMA_BUF_SYNC_VALID_FLAGS_MASK || !(sync.flags & DMA_BUF_SYNC_RW)
               ? -EINVAL
               : 0;
}

static int64_t time_now(void)
{
    struct timespec now;

    clock_gettime(CLOCK_MONOTONIC, &now);
    return (int64_t)now.tv_sec * SECOND + now.tv_nsec;
}

/* Waits for a time, until a signal is handled. The thread isn't cancelled meanwhile. */
static int wait_until(int64_t time)
{
    struct timespec until = {(time_t)(time / SECOND), (long)(time % SECOND)};
    int cancelling, failed;

    pthread_setcancelstate(PTHREAD_CANCEL_DISABLE, &cancelling);
    failed = clock_nanosleep(CLOCK_MONOTONIC, TIMER_ABSTIME, &until, NULL);
    pthread_setcancelstate(cancelling, NULL);
    return failed ? -EINTR : 0;
}

/* Waits until a descriptor is readable (1), or for a time (0), or until a signal is handled. */
static int wait_on(int fd, int64_t time)
{
    int64_t left = 0;
    int ready;

    do {
        struct pollfd awaited = {fd, POLLIN, 0};
        struct timespec most;

        left = time - time_now() < longest_wait ? time - time_now() : longest_wait;
        left = left > 0 ? left : 0;
        most = (struct timespec){(time_t)(left / SECOND), (long)(left % SECOND)};
        ready = ppoll(&awaited, 1, &most, NULL);
        if (ready > 0)
            return 1;
        if (ready < 0 || caller_is_interrupted())
            return -EINTR;
    } while (time > time_now());
    return 0;
}

/* Takes the answer to a request from the descriptor on which the caller waited. */
static int take_late(int fd, uint32_t request, uint64_t address)
{
    struct {
        struct reply reply;
        uint8_t bytes[MOST_LATE];
    } late;
    ssize_t length = recv(fd, &late, sizeof late, MSG_DONTWAIT);
    int failed;

    if (length < (ssize_t)sizeof late.reply
        || late.reply.size != (size_t)length - sizeof late.reply)
        return -ENODEV;
    failed = caller_takes(address, late.bytes, least(late.reply.size, _IOC_SIZE(request)));
    return failed ? failed : late.reply.result;
}

/* Lets the caller wait on a descriptor. Returns whether it asks again. A signal interrupts a wait,
 * but not a commit that is carried out. */
static bool waits_on(int awaited, uint32_t request, uint64_t address, const struct reply *reply,
                     int *answered)
{
    int cancelling, ready;

    pthread_setcancelstate(PTHREAD_CANCEL_DISABLE, &cancelling);
    ready = wait_on(awaited, reply->until);
    if (ready > 0 && !reply->is_again)
        *answered = take_late(awaited, request, address);
    close(awaited);
    pthread_setcancelstate(cancelling, NULL);
    if (ready < 0 && (reply->is_again || *answered != 0))
        *answered = ready;
    return ready > 0 && reply->is_again;
}

/* Lets the caller wait for a time. Returns whether it asks again. A signal interrupts a request
 * that waits, but not a commit that is carried out. */
static bool waits_until(uint32_t request, const struct reply *reply, int64_t most, int *answered)
{
    bool is_commit = _IOC_NR(request) == _IOC_NR(DRM_IOCTL_MODE_ATOMIC);

    if (reply->until == 0 || (reply->is_again && reply->until > most))
        return false;
    if (wait_until(reply->until) != 0 && !is_commit && (reply->is_again || *answered == 0)) {
        *answered = -EINTR;
        return false;
    }
    return reply->is_again;
}

int ask_ioctl(int fd, uint32_t request, uint64_t address)
{
    int64_t most = time_now() + MOST_WAIT;
    struct reply reply;
    int answered, awaited;
    bool is_again;

    do {
        answered = ask_once(fd, request, address, &reply, &awaited);
        is_again = awaited >= 0 ? waits_on(awaited, request, address, &reply, &answered)
                                : waits_until(request, &reply, most, &answered);
    } while (is_again);
    return answered;
}
