/* The caller: a task that waits for the answer to a system call. Its memory, its descriptors, its
 * process and user, and the sockets on which its answers arrive. */
#include "supervisor.h"

#include <stdio.h>
#include <stdlib.h>
#include <sys/ioctl.h>
#include <sys/stat.h>
#include <sys/syscall.h>

static _Thread_local const struct call *call;
static _Thread_local struct caller caller;
static _Thread_local unsigned held; /* how many of the caller's descriptors this thread has */

/* Held while a thread has a descriptor of a caller's, so that the files of a process that has ended
 * are closed before the next request. */
static pthread_mutex_t files_turn = PTHREAD_MUTEX_INITIALIZER;
static pthread_mutex_t channels_turn = PTHREAD_MUTEX_INITIALIZER;
static struct channel *free_channels;
static int way_to_display = -1;

void answer_for(const struct call *set)
{
    call = set;
    caller = (struct caller){(pid_t)set->notice.pid, 0, 0};
}

/* Returns the number of a line of the status of the caller, or -1. */
static long number_in(const char *status, const char *name)
{
    const char *found = strstr(status, name);

    return found == NULL ? -1 : atol(found + strlen(name));
}

bool caller_waits(void)
{
    uint64_t id = call->notice.id;

    return ioctl(call->listener, SECCOMP_IOCTL_NOTIF_ID_VALID, &id) == 0;
}

static void read_status(char *status, size_t room)
{
    char path[32];
    ssize_t length = 0;
    int fd;

    snprintf(path, sizeof path, "/proc/%d/status", (int)caller.task);
    fd = open(path, O_RDONLY | O_CLOEXEC);
    if (fd >= 0) {
        length = read(fd, status, room - 1);
        close(fd);
    }
    status[length > 0 ? length : 0] = '\0';
}

/* Finds the process, of which a task is a thread, and its user. */
static void find_process(void)
{
    char status[1024];

    read_status(status, sizeof status);
    caller.process = (pid_t)number_in(status, "\nTgid:");
    caller.user = (uid_t)number_in(status, "\nUid:");
}

/* The number of a task that doesn't wait any more can be another one's. */
const struct caller *caller_now(void)
{
    if (!caller_waits())
        caller = (struct caller){-1, -1, (uid_t)-1};
    else if (caller.process == 0)
        find_process();
    return &caller;
}

int copy_text_from_caller(char *text, size_t room, uint64_t address)
{
    size_t length = 0;

    while (length < room) {
        size_t left = PAGE - (address + length) % PAGE;
        size_t size = left < room - length ? left : room - length;

        if (caller_reads(text + length, address + length, size) != 0)
            return -EFAULT;
        if (memchr(text + length, '\0', size) != NULL)
            return 0;
        length += size;
    }
    return -ENAMETOOLONG;
}

void name_caller_descriptor(char *path, size_t room, int fd)
{
    snprintf(path, room, "/proc/%d/fd/%d", (int)caller.task, fd);
}

int caller_file(int fd)
{
    int process, file, error;

    if (held++ == 0)
        pthread_mutex_lock(&files_turn);
    process = (int)syscall(SYS_pidfd_open, caller_now()->process, 0);
    file = process < 0 ? -1 : (int)syscall(SYS_pidfd_getfd, process, fd, 0);
    error = errno;
    if (process >= 0)
        close(process);
    if (file >= 0 && caller_waits())
        return file;
    if (file >= 0)
        close(file);
    caller_file_end(-1);
    return -error;
}

void caller_file_end(int fd)
{
    if (fd >= 0)
        close(fd);
    if (--held == 0)
        pthread_mutex_unlock(&files_turn);
}

/* Returns a descriptor of the caller if it is a socket, or -1. */
static int caller_socket(int fd)
{
    struct stat status;
    char path[48];

    name_caller_descriptor(path, sizeof path, fd);
    return stat(path, &status) == 0 && S_ISSOCK(status.st_mode) ? caller_file(fd) : -1;
}

bool is_caller_node(int fd, enum node *node)
{
    int file = caller_socket(fd);
    bool is_one = file >= 0 && is_node(file, node);

    if (file >= 0)
        caller_file_end(file);
    return is_one;
}

bool is_caller_fence(int fd)
{
    int file = caller_socket(fd);
    bool is_one = file >= 0 && fence_number(file) != 0;

    if (file >= 0)
        caller_file_end(file);
    return is_one;
}

/* A signal doesn't end a wait of the supervisor's. */
const int64_t longest_wait = 50000000;

/* Returns the signals in a line of the status of the caller. */
static uint64_t signals_in(const char *status, const char *name)
{
    const char *found = strstr(status, name);

    return found == NULL ? 0 : strtoull(found + strlen(name), NULL, 16);
}

bool caller_is_interrupted(void)
{
    char status[1024];

    if (!caller_waits())
        return true;
    read_status(status, sizeof status);
    return ((signals_in(status, "\nSigPnd:") | signals_in(status, "\nShdPnd:"))
            & ~signals_in(status, "\nSigBlk:") & ~signals_in(status, "\nSigIgn:"))
           != 0;
}

int caller_gets(int fd, int flags)
{
    struct seccomp_notif_addfd given = {
        .id = call->notice.id, .srcfd = (uint32_t)fd, .newfd_flags = (uint32_t)(flags & O_CLOEXEC)};
    int number = ioctl(call->listener, SECCOMP_IOCTL_NOTIF_ADDFD, &given);

    if (number < 0)
        number = -errno;
    close(fd);
    return number;
}

bool callers_begin(int way)
{
    way_to_display = way;
    return fcntl(way, F_SETFD, FD_CLOEXEC) == 0;
}

/* Files of processes that have ended are closed first. */
int open_for_caller(enum node node, int flags)
{
    pthread_mutex_lock(&files_turn);
    pthread_mutex_unlock(&files_turn);
    return ask_to_open(way_to_display, node, flags);
}

/* The display believes what comes with this socket. */
static struct channel *make_channel(void)
{
    struct channel *made = calloc(1, sizeof *made);
    int other;

    if (made == NULL)
        return NULL;
    made->fd = -1;
    if (channel_make(made, &other) && channel_note(made, other, way_to_display) == 0
        && made->fd >= 0)
        return made;
    free(made);
    errno = EMFILE;
    return NULL;
}

struct channel *channel_take(int *other)
{
    struct channel *taken;

    *other = -1;
    pthread_mutex_lock(&channels_turn);
    taken = free_channels;
    if (taken != NULL)
        free_channels = taken->next;
    pthread_mutex_unlock(&channels_turn);
    return taken != NULL ? taken : make_channel();
}

void channel_let(struct channel *channel)
{
    if (channel->fd < 0) {
        free(channel);
        return;
    }
    pthread_mutex_lock(&channels_turn);
    channel->next = free_channels;
    free_channels = channel;
    pthread_mutex_unlock(&channels_turn);
}
