/* The receiving of packets, and their answers. */
#include "display.h"

#include <drm.h>
#include <drm_mode.h>
#include <stdio.h>
#include <stdlib.h>
#include <sys/ioctl.h>
#include <sys/mman.h>
#include <sys/uio.h>

#define MOST_TRACED 512

static atomic_uint count_answering; /* how many threads send an answer */

static void take_control(struct msghdr *message, struct packet *packet)
{
    struct cmsghdr *part;

    for (part = CMSG_FIRSTHDR(message); part != NULL; part = CMSG_NXTHDR(message, part)) {
        if (part->cmsg_level != SOL_SOCKET)
            continue;
        if (part->cmsg_type == SCM_CREDENTIALS)
            memcpy(&packet->sender, CMSG_DATA(part), sizeof packet->sender);
        if (part->cmsg_type == SCM_RIGHTS) {
            packet->count = (int)((part->cmsg_len - CMSG_LEN(0)) / sizeof(int));
            memcpy(packet->received, CMSG_DATA(part), (size_t)packet->count * sizeof(int));
        }
    }
}

/* Reads the lists of a packet from the last file that came with it. (It isn't mapped: its sender
 * may make it shorter.) */
static bool read_aside(struct packet *packet, size_t length)
{
    size_t taken = 0;
    ssize_t more = 1;
    int file = packet->count > packet->taken ? packet->received[--packet->count] : -1;

    packet->aside = file < 0 ? NULL : malloc(length);
    while (packet->aside != NULL && more > 0 && taken < length) {
        more = pread(file, packet->aside + taken, length - taken, (off_t)taken);
        taken += more > 0 ? (size_t)more : 0;
    }
    if (file >= 0)
        close(file);
    packet->lists = packet->aside;
    return packet->aside != NULL && taken == length;
}

/* Returns whether the form of a packet is right: that of its kind, and as long as its parts. */
static bool has_right_form(struct packet *packet, size_t length)
{
    size_t at, wanted = sizeof packet->ask, listed = 0;

    if (packet->ask.form != PACKET_FORM || packet->ask.kind > ASK_NOTHING)
        return false;
    packet->argument = packet->bytes + sizeof packet->ask;
    if (packet->ask.kind == ASK_IOCTL)
        wanted += _IOC_SIZE(packet->ask.request);
    packet->lists = packet->bytes + wanted;
    for (at = 0; at < MOST_LISTS; at++) {
        if (packet->ask.lists[at].size > MOST_LONG - listed)
            return false;
        listed += packet->ask.lists[at].size;
    }
    if (packet->ask.flags & HAS_LISTS)
        return wanted == length && listed > MOST_INLINE && read_aside(packet, listed);
    return wanted + listed == length;
}

/* The next descriptor that came with the packet, or -1. */
static int take_descriptor(struct packet *packet)
{
    return packet->taken < packet->count ? packet->received[packet->taken++] : -1;
}

static void let_go(struct packet *packet)
{
    int fd;

    while ((fd = take_descriptor(packet)) >= 0)
        close(fd);
    free(packet->aside);
    packet->aside = NULL;
}

/* Sends an answer on a socket, with as many descriptors as the reply says. */
static void respond(int socket, const struct reply *reply, const struct written *written,
                    const int *descriptors)
{
    size_t length = reply->descriptors * sizeof *descriptors;
    union {
        struct cmsghdr head;
        char room[CMSG_SPACE(MOST_MADE * sizeof *descriptors)];
    } control;
    struct iovec parts[] = {{(void *)(uintptr_t)reply, sizeof *reply}, {NULL, 0}};
    struct msghdr message = {.msg_iov = parts, .msg_iovlen = 1};

    if (written != NULL && !reply->is_long) {
        parts[1] = (struct iovec){written->bytes, written->length};
        message.msg_iovlen = 2;
    }
    if (length > 0) {
        memset(&control, 0, sizeof control);
        message.msg_control = &control;
        message.msg_controllen = CMSG_SPACE(length);
        control.head.cmsg_level = SOL_SOCKET;
        control.head.cmsg_type = SCM_RIGHTS;
        control.head.cmsg_len = CMSG_LEN(length);
        memcpy(CMSG_DATA(&control.head), descriptors, length);
    }
    sendmsg(socket, &message, MSG_DONTWAIT | MSG_NOSIGNAL);
}

/* Sends the answer to the caller's thread, if that still waits. The turn is over then, and the lock
 * is let go. */
static void respond_to(const struct packet *packet, struct reply *reply,
                       const struct written *written, const int *descriptors)
{
    struct channel *channel = channel_find(packet->channel, packet->sender.pid);
    struct task *task = task_now();

    reply->tag = packet->ask.tag;
    reply->channel = packet->channel;
    if (channel == NULL)
        return;
    channel_use(channel);
    count_answering++;
    if (task->turn != NULL)
        turn_end(task->turn);
    task->turn = NULL;
    display_unlock();
    respond(channel->source.fd, reply, written, descriptors);
    count_answering--;
    channel_release(channel);
}

bool packets_are_answered(void)
{
    return count_answering == 0;
}

/* Finds the socket for the answer: one that came with the packet, or one that came before. Without
 * room for it, the answer says so. */
static const struct channel *find_channel(const struct packet *packet, bool is_supervisor)
{
    const struct reply refusal = {.result = -EMFILE, .tag = packet->ask.tag};
    struct channel *found;

    if (packet->socket < 0)
        return channel_find(packet->ask.channel, packet->sender.pid);
    found = channel_add(packet->socket, &packet->sender, is_supervisor);
    if (found == NULL) {
        respond(packet->socket, &refusal, NULL, NULL);
        close(packet->socket);
    }
    return found;
}

/* Finds the caller, and the socket for the answer. A supervisor names its callers. */
static void find_caller(struct task *task)
{
    struct packet *packet = &task->packet;
    const struct channel *channel = find_channel(packet, task->peer->is_supervisor);

    packet->channel = channel == NULL ? 0 : channel->number;
    task->caller = packet->sender;
    if (channel != NULL && channel->is_supervisor) {
        task->caller.pid = packet->ask.process;
        task->caller.uid = packet->ask.user;
    }
}

/* A packet may be empty. Each has the sender with it. */
bool packet_receive(struct task *task)
{
    union {
        struct cmsghdr head;
        char room[CMSG_SPACE(sizeof(struct ucred)) + CMSG_SPACE(MOST_RECEIVED * sizeof(int))];
    } control;
    struct packet *packet = &task->packet;
    struct iovec part = {packet->bytes, sizeof packet->bytes};
    struct msghdr message = {.msg_iov = &part,
                             .msg_iovlen = 1,
                             .msg_control = &control,
                             .msg_controllen = sizeof control};
    ssize_t length;

    /* what an end has not read is an error of the other one, which has more packets nevertheless */
    do
        length = recvmsg(task->peer->source.fd, &message, MSG_CMSG_CLOEXEC);
    while (length < 0 && (errno == EINTR || errno == ECONNRESET));
    if (length < 0 || message.msg_controllen == 0)
        return false;
    packet->aside = NULL;
    packet->count = packet->taken = 0;
    packet->sender = (struct ucred){0, (uid_t)-1, (gid_t)-1};
    take_control(&message, packet);
    memset(&packet->ask, 0, sizeof packet->ask);
    if (length >= (ssize_t)sizeof packet->ask)
        memcpy(&packet->ask, packet->bytes, sizeof packet->ask);
    packet->socket = packet->ask.flags & HAS_CHANNEL ? take_descriptor(packet) : -1;
    packet->is_right =
        length >= (ssize_t)sizeof packet->ask && has_right_form(packet, (size_t)length);
    return true;
}

bool packet_is_reading(const struct task *task)
{
    const struct ask *ask = &task->packet.ask;

    return !task->packet.is_right || task->peer->proxy != NULL || ask->kind == ASK_MAP
           || ask->kind == ASK_NOTHING || (ask->kind == ASK_IOCTL && is_reading(ask->request));
}

/* Opens a node for the caller. The root socket is for root alone. */
static int open_node(const struct task *task)
{
    const struct ask *ask = &task->packet.ask;
    struct connection *opened;
    int failed;

    if (ask->request >= NODE_KINDS)
        return -ENODEV;
    if (ask->request == NODE_ROOT && task->caller.uid != 0)
        return -EACCES;
    if (!file_has_room(task->caller.uid))
        return -EMFILE;
    failed = connection_open((enum node)ask->request, false, 0, task->caller.pid, &opened);
    return failed ? failed : file_make(opened, ask->open_flags, task->caller.uid);
}

static void answer_open(struct task *task)
{
    int descriptor = open_node(task);
    struct reply reply = {.result = descriptor < 0 ? descriptor : 0,
                          .descriptors = descriptor >= 0};

    respond_to(&task->packet, &reply, NULL, &descriptor);
    if (descriptor >= 0)
        close(descriptor);
}

/* Sends the memory at an offset. */
static void answer_map(struct task *task)
{
    const struct ask *ask = &task->packet.ask;
    uint64_t size, place = place_at(ask->offset);
    int memory = buffers_memory(task->peer->connection, handle_at(ask->offset), &size);
    struct reply reply = {.place = place};

    if (memory >= 0 && (ask->length > size || place > size - ask->length))
        memory = -EINVAL;
    reply.result = memory < 0 ? memory : 0;
    reply.descriptors = memory >= 0;
    respond_to(&task->packet, &reply, NULL, &memory);
}

/* Hands over the descriptor of a lessee that a request made. */
static int hand_over_lessee(const struct task *task, const struct drm_mode_create_lease *lease)
{
    int made = file_make(task->outcome.opened, lease->flags, task->caller.uid);

    return made < 0 ? made : outcome_has(made);
}

/* Carries out a request of a file, or on the descriptor of a fence. */
static int carry_out_of_peer(const struct task *task, void *argument)
{
    uint32_t request = task->packet.ask.request;
    int failed;

    if (task->peer->proxy != NULL)
        return proxy_carry_out(task->peer->proxy, request, argument);
    failed = carry_out(task->peer->connection, request, argument);
    if (!failed && task->outcome.opened != NULL)
        failed = hand_over_lessee(task, argument);
    return failed;
}

/* Carries out a request with a copy of its struct, which is first in what is written. */
static int carry_out_packet(struct task *task)
{
    union {
        max_align_t aligned;
        uint8_t bytes[1 << _IOC_SIZEBITS];
    } argument;
    uint32_t size = _IOC_SIZE(task->packet.ask.request);
    int failed;

    memcpy(&argument, task->packet.argument, size);
    if (written_add(&task->written, size) == NULL)
        failed = -ENOMEM;
    else
        failed = carry_out_of_peer(task, &argument);
    if (task->written.length >= size)
        memcpy(task->written.bytes, &argument, size);
    return failed;
}

/* Puts a long answer into a file. */
static int put_aside(const struct written *written)
{
    int file = memfd_create("zirkoshe-answer", MFD_CLOEXEC);

    if (file >= 0 && write(file, written->bytes, written->length) != (ssize_t)written->length) {
        close(file);
        file = -1;
    }
    return file;
}

/* Adds the line of the trace, if it is wanted. */
static uint32_t add_trace(struct task *task, int failed)
{
    uint32_t wanted = failed ? TRACES_FAILURES | TRACES_ALL : TRACES_ALL;
    uint8_t *line = (task->packet.ask.flags & wanted) && !task->outcome.is_again
                        ? written_add(&task->written, MOST_TRACED)
                        : NULL;
    int length = line == NULL ? 0 : trace_line((char *)line, MOST_TRACED, failed);

    if (line != NULL)
        task->written.length -= (size_t)(MOST_TRACED - length);
    return (uint32_t)length;
}

/* Puts what is written into a file, if it is long; without memory, the answer says so. */
static void shorten(struct task *task, struct reply *reply)
{
    struct outcome *outcome = &task->outcome;
    int file = put_aside(&task->written);

    reply->is_long = file >= 0;
    if (file >= 0) {
        outcome->descriptors[outcome->count++] = file;
        return;
    }
    *reply = (struct reply){.result = -ENOMEM};
    task->written.length = 0;
}

static void answer_ioctl(struct task *task)
{
    struct written *written = &task->written;
    struct outcome *outcome = &task->outcome;
    struct reply reply = {.size = _IOC_SIZE(task->packet.ask.request)};

    written->length = written->count = 0;
    *outcome = (struct outcome){0};
    reply.result = carry_out_packet(task);
    reply.until = outcome->until;
    reply.is_again = outcome->is_again;
    reply.is_awaited = outcome->is_awaited;
    reply.fences = outcome->fences;
    reply.writes = written->count;
    reply.traced = add_trace(task, reply.result);
    if (written->length > MOST_INLINE && outcome->count == 0)
        shorten(task, &reply);
    reply.descriptors = outcome->count;
    respond_to(&task->packet, &reply, written, outcome->descriptors);
    while (outcome->count > 0)
        close(outcome->descriptors[--outcome->count]);
}

/* Returns whether a packet is one that a peer takes: a file, a proxy, or an opener. */
static bool is_taken(const struct peer *peer, const struct ask *ask)
{
    if (peer->proxy != NULL)
        return ask->kind == ASK_IOCTL;
    return (ask->kind == ASK_IOCTL || ask->kind == ASK_MAP) == (peer->connection != NULL);
}

/* Each packet gets an answer. A process that the display can't see, in another PID namespace, is
 * refused. */
void packet_answer(struct task *task)
{
    const struct ask *ask = &task->packet.ask;
    struct reply refusal = {.result = -EINVAL};

    find_caller(task);
    if (!task->packet.is_right || !is_taken(task->peer, ask)) {
        respond_to(&task->packet, &refusal, NULL, NULL);
    } else if (task->caller.pid == 0) {
        refusal.result = -EACCES;
        respond_to(&task->packet, &refusal, NULL, NULL);
    } else if (ask->kind == ASK_OPEN) {
        answer_open(task);
    } else if (ask->kind == ASK_IOCTL) {
        answer_ioctl(task);
    } else if (ask->kind == ASK_MAP) {
        answer_map(task);
    } else {
        respond_to(&task->packet, &(struct reply){0}, NULL, NULL);
    }
    let_go(&task->packet);
}
