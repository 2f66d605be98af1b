/* The socket of each thread for its answers, and the opening of nodes. Signals are blocked while a
 * thread asks, so that no handler takes the answer of the thread that it interrupts. */
#include "libc.h"

#include "preload.h"

#include <errno.h>
#include <fcntl.h>
#include <pthread.h>
#include <signal.h>
#include <stdlib.h>
#include <string.h>
#include <sys/mman.h>
#include <sys/socket.h>
#include <sys/un.h>
#include <unistd.h>

#define OF_THREAD _Thread_local __attribute__((tls_model("initial-exec")))

/* What was before a thread asked */
struct before {
    sigset_t signals;
    int cancelling;
};

static OF_THREAD struct channel *own;
static OF_THREAD struct before before;
static pthread_key_t at_end;

/* A socket of the process, for threads that can't make one at the limit of descriptors. They use it
 * one after the other. */
static struct channel spare = {.fd = -1};
static pthread_mutex_t spare_turn = PTHREAD_MUTEX_INITIALIZER;

static void end_thread(void *given)
{
    channel_end(given);
    munmap(given, sizeof(struct channel));
    own = NULL;
}

/* A thread that the child doesn't have may have had the turn. The child makes another spare. */
static void begin_anew(void)
{
    pthread_mutex_init(&spare_turn, NULL);
}

__attribute__((constructor)) static void begin(void)
{
    pthread_key_create(&at_end, end_thread);
    pthread_atfork(NULL, NULL, begin_anew);
}

/* Blocks what could come between. Signals of faults arrive at once. */
static void hold(struct before *held)
{
    static const int faults[] = {SIGSEGV, SIGBUS, SIGFPE, SIGILL, SIGTRAP, SIGSYS, SIGABRT};
    sigset_t all;
    size_t at;

    sigfillset(&all);
    for (at = 0; at < sizeof faults / sizeof faults[0]; at++)
        sigdelset(&all, faults[at]);
    pthread_setcancelstate(PTHREAD_CANCEL_DISABLE, &held->cancelling);
    pthread_sigmask(SIG_BLOCK, &all, &held->signals);
}

static void let(const struct before *held)
{
    pthread_sigmask(SIG_SETMASK, &held->signals, NULL);
    pthread_setcancelstate(held->cancelling, NULL);
}

/* The thread's socket, or NULL with errno. */
static struct channel *find_own(int *other)
{
    if (own == NULL) {
        own = REAL(mmap)(NULL, sizeof *own, PROT_READ | PROT_WRITE, MAP_PRIVATE | MAP_ANONYMOUS, -1,
                         0);
        if (own == MAP_FAILED) {
            own = NULL;
            return NULL;
        }
        own->fd = -1;
        pthread_setspecific(at_end, own);
    }
    return channel_is_there(own) || channel_make(own, other) ? own : NULL;
}

static struct channel *find_spare(void)
{
    int error = errno;

    if ((error == EMFILE || error == ENFILE) && spare.process == getpid()) {
        pthread_mutex_lock(&spare_turn);
        if (channel_is_there(&spare))
            return &spare;
        pthread_mutex_unlock(&spare_turn);
    }
    errno = error;
    return NULL;
}

struct channel *channel_take(int *other)
{
    struct before held;
    struct channel *found;

    *other = -1;
    hold(&held);
    found = find_own(other);
    if (found == NULL)
        found = find_spare();
    if (found == NULL)
        let(&held);
    else
        before = held;
    return found;
}

void channel_let(struct channel *channel)
{
    struct before held = before;

    if (channel == &spare)
        pthread_mutex_unlock(&spare_turn);
    let(&held);
}

/* The spare is made with the first node that is opened. */
static void make_spare(int fd)
{
    struct before held;
    int other;

    hold(&held);
    pthread_mutex_lock(&spare_turn);
    if (!channel_is_there(&spare) && channel_make(&spare, &other))
        channel_note(&spare, other, fd);
    pthread_mutex_unlock(&spare_turn);
    let(&held);
}

/* A program asks for itself. */
const struct caller *caller_now(void)
{
    return NULL;
}

int caller_file(int fd)
{
    return fd;
}

void caller_file_end(int fd)
{
    (void)fd;
}

/* A signal ends its waits. */
const int64_t longest_wait = INT64_MAX;

bool caller_is_interrupted(void)
{
    return false;
}

int caller_gets(int fd, int flags)
{
    if (!(flags & O_CLOEXEC))
        fcntl(fd, F_SETFD, 0);
    return fd;
}

static int connect_to_display(void)
{
    const char *path = getenv("DRM_SERVER_DISPLAY");
    struct sockaddr_un address = {.sun_family = AF_UNIX};
    int fd, failed;

    if (path == NULL || strlen(path) >= sizeof address.sun_path)
        return -ENODEV;
    strcpy(address.sun_path, path);
    fd = socket(AF_UNIX, SOCK_SEQPACKET | SOCK_CLOEXEC, 0);
    if (fd < 0)
        return -errno;
    if (connect(fd, (struct sockaddr *)&address, sizeof address) == 0)
        return fd;
    failed = errno == EACCES ? -EACCES : -ENODEV;
    close(fd);
    return failed;
}

int open_node(enum node node, int flags)
{
    int way = connect_to_display(), opened;

    if (way < 0)
        return way;
    opened = ask_to_open(way, node, flags);
    close(way);
    if (opened >= 0) {
        make_spare(opened);
        caller_gets(opened, flags);
    }
    return opened;
}

int result_of(int answer)
{
    if (answer >= 0)
        return answer;
    errno = -answer;
    return -1;
}
