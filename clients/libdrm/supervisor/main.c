/* supervisor COMMAND..: runs a command and answers its system calls on the nodes. The environment
 * variables are those of the preloaded library, and DRM_SERVER_CHANNEL in place of
 * DRM_SERVER_DISPLAY: the number of a descriptor, whose other end the display has. */
#include "supervisor.h"

#include "tree.h"

#include <stdio.h>
#include <stdlib.h>
#include <sys/ioctl.h>
#include <sys/prctl.h>
#include <sys/signalfd.h>
#include <sys/socket.h>
#include <sys/syscall.h>
#include <sys/wait.h>

#define PROGRAM "supervisor"
#define STATUS_NOT_STARTED 125
#define STATUS_NOT_RUN 126
#define STATUS_NOT_FOUND 127

/* A notification of the kernel. A later kernel can write a longer one. */
union notice {
    struct seccomp_notif call;
    char room[512];
};

struct command {
    pid_t process;
    int end; /* readable when the process has ended */
    int listener, signals;
};

/* What the supervisor reads in the process of the command, to find out whether it may. */
static const uint64_t known = 0x5a69726b6f736865;

static void say(const char *what, int error)
{
    fprintf(stderr, PROGRAM ": %s: %s\n", what, strerror(error));
}

/* Says which descriptor has the notifications, and waits until the supervisor has it. */
static bool hand_in(int channel, int listener)
{
    return write(channel, &listener, sizeof listener) == sizeof listener
           && read(channel, &(char){0}, 1) == 1;
}

/* Returns that descriptor of a process, or -1. */
static int take_in(int channel, int process)
{
    int listener;

    if (read(channel, &listener, sizeof listener) != sizeof listener)
        return -1;
    return (int)syscall(SYS_pidfd_getfd, process, listener, 0);
}

/* Becomes the command. The kernel kills it if the supervisor ends. */
__attribute__((noreturn)) static void run(char **words, int channel, const sigset_t *before)
{
    int listener = begin_filter();

    prctl(PR_SET_PDEATHSIG, SIGKILL);
    if (listener < 0) {
        say("the kernel refuses a filter of system calls with notifications", -listener);
        _exit(STATUS_NOT_STARTED);
    }
    if (!hand_in(channel, listener))
        _exit(STATUS_NOT_STARTED);
    close(listener);
    close(channel);
    sigprocmask(SIG_SETMASK, before, NULL);
    execvp(words[0], words);
    if (errno == ENOENT)
        fprintf(stderr, PROGRAM ": command not found: %s\n", words[0]);
    else
        fprintf(stderr, PROGRAM ": can't run %s: %s\n", words[0], strerror(errno));
    _exit(errno == ENOENT ? STATUS_NOT_FOUND : STATUS_NOT_RUN);
}

/* Returns whether the supervisor may read the memory of the command, and knows the form of
 * notifications. */
static bool is_allowed(pid_t process)
{
    struct seccomp_notif_sizes sizes;
    uint64_t found = 0;
    struct iovec here = {&found, sizeof found}, there = {(void *)(uintptr_t)&known, sizeof known};

    if (process_vm_readv(process, &here, 1, &there, 1, 0) != sizeof found || found != known) {
        say("the kernel refuses to read the command's memory", errno);
        return false;
    }
    if (syscall(__NR_seccomp, SECCOMP_GET_NOTIF_SIZES, 0, &sizes) != 0
        || sizes.seccomp_notif > sizeof(union notice)
        || sizes.seccomp_notif_resp != sizeof(struct seccomp_notif_resp)) {
        say("notifications have another form than is known", ENOTSUP);
        return false;
    }
    return true;
}

static int status_of(int ended)
{
    return WIFSIGNALED(ended) ? 128 + WTERMSIG(ended) : WEXITSTATUS(ended);
}

/* Starts the command, which begins once the supervisor can answer its calls. Exits on failure. */
static struct command start(char **words, const sigset_t *heeded, const sigset_t *before)
{
    struct command command;
    int channel[2], ended = 0;

    if (socketpair(AF_UNIX, SOCK_STREAM | SOCK_CLOEXEC, 0, channel) != 0)
        exit(STATUS_NOT_STARTED);
    command.process = fork();
    if (command.process == 0) {
        close(channel[0]);
        run(words, channel[1], before);
    }
    close(channel[1]);
    command.end = (int)syscall(SYS_pidfd_open, command.process, 0);
    command.listener = command.end < 0 ? -1 : take_in(channel[0], command.end);
    command.signals = signalfd(-1, heeded, SFD_CLOEXEC);
    if (command.listener < 0 || command.signals < 0 || command.end < 0
        || !is_allowed(command.process) || write(channel[0], "", 1) != 1) {
        close(channel[0]);
        if (command.process > 0)
            waitpid(command.process, &ended, 0);
        exit(STATUS_NOT_STARTED);
    }
    close(channel[0]);
    return command;
}

/* Passes a signal on. A terminal sends its signals to the command, too. */
static void take_signal(const struct command *command)
{
    struct signalfd_siginfo taken;

    if (read(command->signals, &taken, sizeof taken) != sizeof taken)
        return;
    if (taken.ssi_signo == SIGTERM || taken.ssi_signo == SIGHUP)
        kill(command->process, (int)taken.ssi_signo);
}

static void take_call(const struct command *command)
{
    union notice notice;

    memset(&notice, 0, sizeof notice);
    if (ioctl(command->listener, SECCOMP_IOCTL_NOTIF_RECV, &notice) == 0)
        answer_call(command->listener, &notice.call);
}

/* Answers calls until the command has ended, and returns its status. (To wait for the process
 * itself would also report its stops for mappings.) */
static int supervise(const struct command *command)
{
    enum { END, LISTENER, SIGNALS, COUNT };
    struct pollfd waited[COUNT] = {
        {command->end, POLLIN, 0}, {command->listener, POLLIN, 0}, {command->signals, POLLIN, 0}};
    int ended = SIGKILL;

    while (!(waited[END].revents & POLLIN)) {
        if (poll(waited, COUNT, -1) < 0)
            continue;
        if (waited[SIGNALS].revents & POLLIN)
            take_signal(command);
        if (waited[LISTENER].revents & POLLIN)
            take_call(command);
        if (waited[LISTENER].revents & POLLHUP)
            waited[LISTENER].fd = -1; /* all processes with the filter have ended */
    }
    waitpid(command->process, &ended, 0);
    folders_end();
    return status_of(ended);
}

/* The command doesn't get the descriptor on which the supervisor names its callers. */
static bool attend_to_display(void)
{
    const char *channel = getenv("DRM_SERVER_CHANNEL");
    bool is_there = channel != NULL && callers_begin(atoi(channel));

    unsetenv("DRM_SERVER_CHANNEL");
    return is_there || !is_served();
}

int main(int count, char **words)
{
    static const int numbers[] = {SIGCHLD, SIGTERM, SIGHUP, SIGINT, SIGQUIT};
    struct command command;
    sigset_t heeded, before;
    size_t at;

    if (count < 2) {
        fprintf(stderr, "usage: " PROGRAM " COMMAND..\n");
        return STATUS_NOT_STARTED;
    }
    if (!attend_to_display()) {
        say("DRM_SERVER_CHANNEL names no descriptor of a display", ENODEV);
        return STATUS_NOT_STARTED;
    }
    sigemptyset(&heeded);
    for (at = 0; at < sizeof numbers / sizeof numbers[0]; at++)
        sigaddset(&heeded, numbers[at]);
    sigprocmask(SIG_BLOCK, &heeded, &before);
    command = start(words + 1, &heeded, &before);
    return supervise(&command);
}
