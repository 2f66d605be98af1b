/* zirkoshe-display SOCKET [DESCRIPTOR]: what programs see of the server. The environment names the
 * server's sockets. SOCKET.control is for the user that started the display. A supervisor speaks
 * for its callers on the other end of the descriptor, a packet socket. The display runs until
 * SIGTERM or SIGINT, or until that end is closed everywhere.
 */
#include "controls.h"
#include "display.h"

#include "late_commits.h"

#include <signal.h>
#include <stdio.h>
#include <stdlib.h>
#include <sys/epoll.h>
#include <sys/resource.h>
#include <sys/signalfd.h>
#include <sys/stat.h>
#include <sys/un.h>

#define PROGRAM "zirkoshe-display"
#define MOST_READY 64
/* After how long buffers are looked at again, and turns at the end, in milliseconds */
#define LOOK 10

static int set = -1;
static int ends = -1; /* the set of what is seen before a request: the ends of peers, and buffers */
static bool is_to_end;
static struct turn closings; /* of the tokens whose buffers are closed */
static struct turn lates;    /* of the commits whose fences are signalled */

bool source_add(struct source *source, uint32_t events)
{
    bool is_of_ends = source->kind == SOURCE_PEER || source->kind == SOURCE_BUFFERS;
    struct epoll_event event = {.events = events, .data = {.ptr = source}};

    return epoll_ctl(is_of_ends ? ends : set, EPOLL_CTL_ADD, source->fd, &event) == 0;
}

void source_remove(struct source *source)
{
    epoll_ctl(source->kind == SOURCE_PEER ? ends : set, EPOLL_CTL_DEL, source->fd, NULL);
}

static void accept_opener(int listener)
{
    int fd = accept4(listener, NULL, NULL, SOCK_CLOEXEC);

    if (fd >= 0)
        opener_add(fd);
}

/* Looks for tokens to close, before what comes later is answered. */
static void attend_to_buffers(void)
{
    buffers_are_closed();
    if (!closings.is_queued && buffers_look())
        turn_queue(&closings, false);
}

/* What the thread of closed buffers does. */
static void *close_tokens(void *unused)
{
    display_lock();
    for (;;) {
        turn_wait(&closings);
        buffers_close_tokens();
        turn_end(&closings);
    }
    return unused;
}

/* Has commits carried out whose fences are signalled. */
static void attend_to_commits(void)
{
    if (!lates.is_queued && late_commits_are_ready())
        turn_queue(&lates, false);
}

/* What the thread of these commits does. */
static void *carry_out_commits(void *unused)
{
    static struct task task;

    task_begin(&task);
    display_lock();
    for (;;) {
        turn_wait(&lates);
        late_commits_carry_out();
        turn_end(&lates);
        attend_to_commits();
    }
    return unused;
}

/* Fences are signalled before the events of the same blanking. */
static void attend_to_fences(void)
{
    fences_signal_due();
    attend_to_commits();
}

static void see(int of, int timeout);

static void see_ready(struct source *source)
{
    switch (source->kind) {
    case SOURCE_LISTENER:
        accept_opener(source->fd);
        break;
    case SOURCE_CONTROL:
        control_accept(source->fd);
        break;
    case SOURCE_PEER:
        peer_end((struct peer *)source);
        break;
    case SOURCE_CHANNEL:
        channel_end((struct channel *)source);
        break;
    case SOURCE_PROXY:
        proxy_attend(source);
        break;
    case SOURCE_FENCES:
        attend_to_fences();
        break;
    case SOURCE_EVENTS:
        attend_to_fences();
        events_deliver();
        break;
    case SOURCE_BUFFERS:
        attend_to_buffers();
        break;
    case SOURCE_ENDS:
        see(source->fd, 0);
        break;
    case SOURCE_SIGNALS:
        is_to_end = true;
        break;
    }
}

/* Sees what is ready of a set, until a time in milliseconds, or -1. It waits without the lock. */
static void see(int of, int timeout)
{
    struct epoll_event ready[MOST_READY];
    int count, at;

    if (timeout != 0)
        display_unlock();
    count = epoll_wait(of, ready, MOST_READY, timeout);
    if (timeout != 0)
        display_lock();
    for (at = 0; at < count; at++)
        see_ready(ready[at].data.ptr);
}

static bool is_any_at_its_end(void)
{
    struct epoll_event one;

    return epoll_wait(ends, &one, 1, 0) > 0;
}

/* The first look needs no lock. */
void display_lock_to_begin(void)
{
    bool is_any = is_any_at_its_end();

    display_lock();
    while (is_any) {
        see(ends, 0);
        is_any = is_any_at_its_end();
    }
    attend_to_fences();
    while (is_to_end)
        task_poll(NULL, 0, -1);
}

static void run(void)
{
    while (!is_to_end) {
        see(set, buffers_may_be_closed() ? LOOK : -1);
        if (buffers_may_be_closed())
            attend_to_buffers();
    }
    while (!turns_are_done() || !packets_are_answered())
        task_poll(NULL, 0, LOOK);
}

static int listen_at(const char *path, int type, mode_t mode)
{
    struct sockaddr_un address = {.sun_family = AF_UNIX};
    int fd = socket(AF_UNIX, type | SOCK_CLOEXEC | SOCK_NONBLOCK, 0), on = 1;

    if (strlen(path) >= sizeof address.sun_path) {
        errno = ENAMETOOLONG;
        return -1;
    }
    strcpy(address.sun_path, path);
    if (fd < 0 || setsockopt(fd, SOL_SOCKET, SO_PASSCRED, &on, sizeof on) != 0
        || fchmod(fd, mode) != 0 || bind(fd, (struct sockaddr *)&address, sizeof address) != 0
        || chmod(path, mode) != 0 || listen(fd, 128) != 0)
        return -1;
    return fd;
}

static int attend_to_signals(void)
{
    sigset_t ending;

    sigemptyset(&ending);
    sigaddset(&ending, SIGTERM);
    sigaddset(&ending, SIGINT);
    sigprocmask(SIG_BLOCK, &ending, NULL);
    return signalfd(-1, &ending, SFD_CLOEXEC);
}

/* Attends to the supervisor's end of a pair of sockets. */
static bool attend_to_supervisor(const char *word)
{
    static struct source its_end = {.kind = SOURCE_SIGNALS};
    int fd = atoi(word), on = 1;
    struct peer *peer;

    its_end.fd = fd;
    if (setsockopt(fd, SOL_SOCKET, SO_PASSCRED, &on, sizeof on) != 0
        || fcntl(fd, F_SETFD, FD_CLOEXEC) != 0 || fcntl(fd, F_SETFL, 0) != 0
        || !source_add(&its_end, 0))
        return false;
    peer = peer_add(fd);
    if (peer != NULL)
        peer->is_supervisor = true;
    return peer != NULL;
}

static bool begin_to_attend(const char *path, const char *control)
{
    static struct source sources[] = {{.kind = SOURCE_LISTENER}, {.kind = SOURCE_EVENTS},
                                      {.kind = SOURCE_FENCES},   {.kind = SOURCE_BUFFERS},
                                      {.kind = SOURCE_ENDS},     {.kind = SOURCE_SIGNALS},
                                      {.kind = SOURCE_CONTROL}};
    pthread_t thread;
    bool is_ready = true;
    size_t at;

    set = epoll_create1(EPOLL_CLOEXEC);
    ends = epoll_create1(EPOLL_CLOEXEC);
    sources[0].fd = listen_at(path, SOCK_SEQPACKET, 0666);
    sources[1].fd = events_timer();
    sources[2].fd = fences_timer();
    sources[3].fd = buffers_watch();
    sources[4].fd = ends;
    sources[5].fd = attend_to_signals();
    sources[6].fd = listen_at(control, SOCK_STREAM, 0600);
    for (at = 0; at < sizeof sources / sizeof sources[0]; at++)
        is_ready = is_ready && source_add(&sources[at], EPOLLIN);
    turn_prepare(&closings);
    turn_prepare(&lates);
    return is_ready && pthread_create(&thread, NULL, close_tokens, NULL) == 0
           && pthread_create(&thread, NULL, carry_out_commits, NULL) == 0;
}

int main(int count, char **words)
{
    char control[sizeof(struct sockaddr_un)];
    struct rlimit most;

    if (count != 2 && count != 3) {
        fprintf(stderr, "usage: " PROGRAM " SOCKET [DESCRIPTOR]\n");
        return 2;
    }
    if (getrlimit(RLIMIT_NOFILE, &most) == 0) {
        most.rlim_cur = most.rlim_max;
        setrlimit(RLIMIT_NOFILE, &most);
    }
    static struct task task;

    task_begin(&task);
    display_lock();
    snprintf(control, sizeof control, "%s" CONTROL_SUFFIX, words[1]);
    if (!begin_to_attend(words[1], control) || (count == 3 && !attend_to_supervisor(words[2]))) {
        fprintf(stderr, PROGRAM ": can't listen at %s: %s\n", words[1], strerror(errno));
        return 1;
    }
    run();
    unlink(words[1]);
    unlink(control);
    return 0;
}
