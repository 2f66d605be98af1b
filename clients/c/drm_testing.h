/* A server for a test, for C99 and C++11 or later, on Linux. It needs POSIX: include it before all
 * other headers, or define _POSIX_C_SOURCE as 200809L.
 *
 *     struct zirkoshe_server server;
 *     struct zirkoshe_client client;
 *
 *     if (zirkoshe_server_start(&server, NULL) != 0)
 *         return 1;
 *     if (zirkoshe_open(&client, server.card, ZIRKOSHE_TIMEOUT) == 0)
 *         zirkoshe_close(&client);
 *     return zirkoshe_server_end(&server) == 0 ? 0 : 1;
 *
 * A server has its own empty device and its sockets in a fresh folder. The program is the one that
 * the options name, that of DRM_SERVER_PROGRAM, or `drm_server` of the path. Its standard error is
 * the test's.
 *
 * A server with the option `control` takes plans of faults while it runs:
 *
 *     options.control = true;
 *     if (zirkoshe_server_start(&server, &options) == 0)
 *         zirkoshe_server_fail(&server, "create_dumb", 2);
 */
#ifndef ZIRKOSHE_DRM_TESTING_H
#define ZIRKOSHE_DRM_TESTING_H

#ifndef _POSIX_C_SOURCE
#define _POSIX_C_SOURCE 200809L
#endif

#include <fcntl.h>
#include <signal.h>
#include <stdio.h>
#include <stdlib.h>
#include <sys/stat.h>
#include <sys/types.h>
#include <sys/wait.h>

#include "drm_client.h"

/* How long a server may take to start and to end, in milliseconds. */
#define ZIRKOSHE_SERVER_TIMEOUT 60000
/* The flag of a listening socket in /proc/net/unix. */
#define ZIRKOSHE_LISTENS 0x10000UL
#define ZIRKOSHE_MOST_WORDS 24
/* The sizes of a line for the control socket and of its answer, with their ends. */
#define ZIRKOSHE_MOST_PLAN 129
#define ZIRKOSHE_MOST_REASON 256

/* The options of a server. A pointer may be NULL. */
struct zirkoshe_server_options {
    const char *program;
    const char *topology; /* a file */
    const char *limits;   /* the eight numbers of a script's limits line */
    const char *journal;  /* the file for the requests and answers, which is written at the end */
    unsigned cards;       /* how many connections each socket accepts in total, 0 to 64 */
    unsigned renders;     /* if all three are 0: any number, and at most 64 at once */
    unsigned roots;
    bool control; /* the server takes plans of faults, such as those of zirkoshe_server_fail */
};

/* The options by default, as an initializer: any number of connections on each socket. */
/* clang-format off */
#define ZIRKOSHE_SERVER_DEFAULTS {NULL, NULL, NULL, NULL, 0, 0, 0, false}
/* clang-format on */

/* A running server, and the paths of its sockets. */
struct zirkoshe_server {
    char folder[80];
    char card[100], render[100], root[100];
    char control[100];                 /* empty without the option `control` */
    char reason[ZIRKOSHE_MOST_REASON]; /* why the server refused the last plan, otherwise empty */
    pid_t process;                     /* -1 if it has ended */
    int input;                         /* the server ends at the end of its standard input */
};

/* The words of a command line. */
struct zirkoshe_words {
    const char *word[ZIRKOSHE_MOST_WORDS];
    char count[3][12]; /* the texts of numbers */
    size_t length;
};

static inline void zirkoshe_add_option(struct zirkoshe_words *words, const char *name,
                                       const char *value)
{
    if (value != NULL) {
        words->word[words->length++] = name;
        words->word[words->length++] = value;
    }
}

/* Whether the server counts connections. */
static inline bool zirkoshe_is_counted(const struct zirkoshe_server_options *options)
{
    return options->cards != 0 || options->renders != 0 || options->roots != 0;
}

static inline void zirkoshe_add_counts(struct zirkoshe_words *words,
                                       const struct zirkoshe_server_options *options)
{
    snprintf(words->count[0], sizeof words->count[0], "%u", options->cards);
    snprintf(words->count[1], sizeof words->count[1], "%u", options->renders);
    snprintf(words->count[2], sizeof words->count[2], "%u", options->roots);
    zirkoshe_add_option(words, "--cards", words->count[0]);
    zirkoshe_add_option(words, "--renders", words->count[1]);
    zirkoshe_add_option(words, "--roots", words->count[2]);
}

/* The command line of a server. */
static inline void zirkoshe_server_command(struct zirkoshe_words *words,
                                           const struct zirkoshe_server *server,
                                           const struct zirkoshe_server_options *options)
{
    const char *program = options->program;

    memset(words, 0, sizeof *words);
    if (program == NULL || program[0] == '\0')
        program = getenv("DRM_SERVER_PROGRAM");
    words->word[0] = program == NULL || program[0] == '\0' ? "drm_server" : program;
    words->word[1] = "serve";
    words->word[2] = zirkoshe_is_counted(options) ? "--until-input-ends" : "--until-ended";
    words->length = 3;
    zirkoshe_add_option(words, "--card", server->card);
    zirkoshe_add_option(words, "--render", server->render);
    zirkoshe_add_option(words, "--root", server->root);
    if (zirkoshe_is_counted(options))
        zirkoshe_add_counts(words, options);
    zirkoshe_add_option(words, "--topology", options->topology);
    zirkoshe_add_option(words, "--limits", options->limits);
    zirkoshe_add_option(words, "--journal", options->journal);
    zirkoshe_add_option(words, "--control", options->control ? server->control : NULL);
}

/* Creates the folder, which no other user can read, and the paths of the sockets; 0 or a negative
 * errno. */
static inline int zirkoshe_server_folder(struct zirkoshe_server *server, bool has_control)
{
    const char *parent = getenv("TMPDIR");
    const size_t most = sizeof server->folder;
    int length = snprintf(server->folder, most, "%s/drm-server-XXXXXX",
                          parent == NULL || parent[0] == '\0' ? "/tmp" : parent);

    if (length < 0 || ZIRKOSHE_CAST(size_t, length) >= most)
        return -ENAMETOOLONG;
    if (mkdtemp(server->folder) == NULL)
        return -errno;
    snprintf(server->card, sizeof server->card, "%s/card", server->folder);
    snprintf(server->render, sizeof server->render, "%s/render", server->folder);
    snprintf(server->root, sizeof server->root, "%s/root", server->folder);
    if (has_control)
        snprintf(server->control, sizeof server->control, "%s/control", server->folder);
    return 0;
}

static inline void zirkoshe_server_clean(const struct zirkoshe_server *server)
{
    unlink(server->card);
    unlink(server->render);
    unlink(server->root);
    if (server->control[0] != '\0')
        unlink(server->control);
    rmdir(server->folder);
}

/* Whether a socket at this path listens. Its file exists a moment before. */
static inline bool zirkoshe_is_listening(const char *path)
{
    FILE *table = fopen("/proc/net/unix", "re");
    char line[512], found[256];
    bool is_listening = false;

    while (table != NULL && !is_listening && fgets(line, sizeof line, table) != NULL) {
        unsigned long flags = 0;

        if (sscanf(line, "%*s %*s %*s %lx %*s %*s %*s %255[^\n]", &flags, found) == 2)
            is_listening = (flags & ZIRKOSHE_LISTENS) != 0 && strcmp(found, path) == 0;
    }
    if (table != NULL)
        fclose(table);
    return is_listening;
}

/* Moves a descriptor out of the standard streams, and returns it or a negative errno. */
static inline int zirkoshe_above_streams(int fd)
{
    int moved, error;

    if (fd > STDERR_FILENO)
        return fd;
    moved = fcntl(fd, F_DUPFD_CLOEXEC, STDERR_FILENO + 1);
    error = errno;
    close(fd);
    return moved < 0 ? -error : moved;
}

/* Creates the two ends of the server's standard input; 0 or a negative errno. No program that
 * another thread starts meanwhile inherits them: sockets can be created as closed on exec. */
static inline int zirkoshe_server_input(int ends[2])
{
    if (socketpair(AF_UNIX, SOCK_STREAM | SOCK_CLOEXEC, 0, ends) != 0)
        return -errno;
    ends[0] = zirkoshe_above_streams(ends[0]);
    ends[1] = zirkoshe_above_streams(ends[1]);
    if (ends[0] >= 0 && ends[1] >= 0)
        return 0;
    close(ends[0] < 0 ? ends[1] : ends[0]);
    return ends[0] < 0 ? ends[0] : ends[1];
}

/* In the child: becomes the program, whose standard input is this descriptor. */
static inline void zirkoshe_server_become(const struct zirkoshe_words *words, int input)
{
    char *argument[ZIRKOSHE_MOST_WORDS + 1];

    memcpy(argument, words->word, sizeof words->word);
    argument[words->length] = NULL;
    setsid(); /* what a terminal sends reaches the test alone */
    dup2(input, STDIN_FILENO);
    close(STDOUT_FILENO);
    open("/dev/null", O_WRONLY); /* the lowest descriptor that is free, which is standard output */
    execvp(argument[0], argument);
    _exit(127);
}

/* Starts the program with an input that it reads to its end; 0 or a negative errno. */
static inline int zirkoshe_server_spawn(struct zirkoshe_server *server,
                                        const struct zirkoshe_words *words)
{
    int ends[2];
    int failed = zirkoshe_server_input(ends);

    if (failed)
        return failed;
    server->process = fork();
    if (server->process == 0)
        zirkoshe_server_become(words, ends[0]);
    failed = server->process < 0 ? -errno : 0;
    close(ends[0]);
    if (failed)
        close(ends[1]);
    else
        server->input = ends[1];
    return failed;
}

/* Waits until the server has ended, and kills it if that takes too long; its status, or -ETIMEDOUT.
 */
static inline int zirkoshe_server_wait(struct zirkoshe_server *server)
{
    int64_t until = zirkoshe_now() + ZIRKOSHE_SERVER_TIMEOUT;
    int status = 0;

    while (waitpid(server->process, &status, WNOHANG) == 0) {
        if (zirkoshe_now() < until) {
            poll(NULL, 0, 1);
            continue;
        }
        kill(server->process, SIGKILL);
        waitpid(server->process, &status, 0);
        status = -ETIMEDOUT;
        break;
    }
    server->process = -1;
    return status;
}

/* Ends the server, and removes its folder; 0, -ECHILD if its status wasn't 0, or -ETIMEDOUT if it
 * had to be killed. A second time it does nothing. */
static inline int zirkoshe_server_end(struct zirkoshe_server *server)
{
    int status;

    if (server->process < 0)
        return 0;
    close(server->input);
    status = zirkoshe_server_wait(server);
    zirkoshe_server_clean(server);
    return status == -ETIMEDOUT || status == 0 ? status : -ECHILD;
}

/* Whether the server listens on each socket that accepts connections. */
static inline bool zirkoshe_server_listens(const struct zirkoshe_server *server,
                                           const struct zirkoshe_server_options *options)
{
    bool is_any = !zirkoshe_is_counted(options);

    return ((options->cards == 0 && !is_any) || zirkoshe_is_listening(server->card))
           && ((options->renders == 0 && !is_any) || zirkoshe_is_listening(server->render))
           && ((options->roots == 0 && !is_any) || zirkoshe_is_listening(server->root))
           && (!options->control || zirkoshe_is_listening(server->control));
}

/* Waits until the server listens, and uses up none of its connections; 0 or a negative errno. */
static inline int zirkoshe_server_await(struct zirkoshe_server *server,
                                        const struct zirkoshe_server_options *options)
{
    int64_t until = zirkoshe_now() + ZIRKOSHE_SERVER_TIMEOUT;
    siginfo_t ended;

    while (!zirkoshe_server_listens(server, options)) {
        memset(&ended, 0, sizeof ended);
        waitid(P_PID, ZIRKOSHE_CAST(id_t, server->process), &ended, WEXITED | WNOHANG | WNOWAIT);
        if (ended.si_signo != 0)
            return -ECHILD;
        if (zirkoshe_now() > until)
            return -ETIMEDOUT;
        poll(NULL, 0, 5);
    }
    return 0;
}

/* Starts a server with these options, or those by default if they are NULL, and waits until it
 * listens; 0, -ECHILD if the program doesn't run, or another negative errno. If it fails, there is
 * nothing to end. */
static inline int zirkoshe_server_start(struct zirkoshe_server *server,
                                        const struct zirkoshe_server_options *options)
{
    const struct zirkoshe_server_options defaults = ZIRKOSHE_SERVER_DEFAULTS;
    const struct zirkoshe_server_options *chosen = options == NULL ? &defaults : options;
    struct zirkoshe_words words;
    int failed;

    memset(server, 0, sizeof *server);
    server->process = -1;
    failed = zirkoshe_server_folder(server, chosen->control);
    if (failed)
        return failed;
    zirkoshe_server_command(&words, server, chosen);
    failed = zirkoshe_server_spawn(server, &words);
    if (failed) {
        zirkoshe_server_clean(server);
        return failed;
    }
    failed = zirkoshe_server_await(server, chosen);
    if (failed)
        zirkoshe_server_end(server);
    return failed;
}

/* Plans of faults */

/* Takes a line of at most `size - 1` bytes, without its end; 0 or a negative errno. */
static inline int zirkoshe_take_line(int fd, char *line, size_t size, int64_t until)
{
    size_t length = 0;

    while (length < size - 1) {
        unsigned char byte;
        int failed = zirkoshe_take_all(fd, &byte, 1, until, -ECONNRESET);

        if (failed)
            return failed;
        if (byte == '\n')
            break;
        line[length++] = ZIRKOSHE_CAST(char, byte);
    }
    line[length] = '\0';
    return 0;
}

/* Sends a line of this length to the control socket, and takes the line that answers it; 0 or a
 * negative errno. */
static inline int zirkoshe_ask_control(const char *path, const char *line, size_t length,
                                       char *answer, size_t size)
{
    int64_t until = zirkoshe_now() + ZIRKOSHE_TIMEOUT;
    const void *bytes = line;
    int fd = zirkoshe_connect(path, until);
    int failed;

    if (fd < 0)
        return fd;
    failed = zirkoshe_send_all(fd, ZIRKOSHE_CAST(const unsigned char *, bytes), length, until);
    if (!failed)
        failed = zirkoshe_take_line(fd, answer, size, until);
    close(fd);
    return failed;
}

/* Sends a line of this length to the server; 0, -EINVAL if the server refuses it, which writes the
 * `reason`, -EINVAL if it isn't one line of at most 128 bytes, -EOPNOTSUPP if the server was
 * started without `control`, -ENOTCONN if it has ended, or another negative errno. */
static inline int zirkoshe_server_plan(struct zirkoshe_server *server, const char *line, int length)
{
    static const char refused[] = "error: ";
    const size_t begin = sizeof refused - 1;
    char answer[ZIRKOSHE_MOST_REASON];
    int failed;

    server->reason[0] = '\0';
    if (server->control[0] == '\0')
        return -EOPNOTSUPP;
    if (server->process < 0)
        return -ENOTCONN;
    if (length <= 0 || length >= ZIRKOSHE_MOST_PLAN || strchr(line, '\n') != line + length - 1)
        return -EINVAL;
    failed = zirkoshe_ask_control(server->control, line, ZIRKOSHE_CAST(size_t, length), answer,
                                  sizeof answer);
    if (failed || strcmp(answer, "ok") == 0)
        return failed;
    if (strncmp(answer, refused, begin) != 0)
        return -EPROTO;
    memcpy(server->reason, answer + begin, strlen(answer + begin) + 1);
    return -EINVAL;
}

/* Refuses memory to the nth call from now that would add a row, nth 1 to 65535. The call is a word
 * of a script, or "open" for openings. It is refused by ZIRKOSHE_APART_NO_MEMORY and changes
 * nothing. Denied calls, and calls that add no row, are not counted. The plan replaces an earlier
 * one for this call. Returns what zirkoshe_server_plan returns. */
static inline int zirkoshe_server_fail(struct zirkoshe_server *server, const char *call,
                                       unsigned nth)
{
    char line[ZIRKOSHE_MOST_PLAN];
    int length = snprintf(line, sizeof line, "fail %s:%u=memory\n", call, nth);

    return zirkoshe_server_plan(server, line, length);
}

/* Delays the answer to the nth call from now by 1 to 60000 milliseconds, nth 1 to 65535. The call
 * is a word of a script, or "open" for openings. It is carried out at once, and other clients are
 * answered meanwhile. The plan replaces an earlier one for this call. Returns what
 * zirkoshe_server_plan returns. */
static inline int zirkoshe_server_stall(struct zirkoshe_server *server, const char *call,
                                        unsigned nth, unsigned milliseconds)
{
    char line[ZIRKOSHE_MOST_PLAN];
    int length = snprintf(line, sizeof line, "stall %s:%u=%u\n", call, nth, milliseconds);

    return zirkoshe_server_plan(server, line, length);
}

/* Closes the connection of the client with this number after its nth request from now, nth 1 to
 * 65535. That request is carried out and not answered. The plan replaces an earlier one for this
 * client. Returns what zirkoshe_server_plan returns. */
static inline int zirkoshe_server_break(struct zirkoshe_server *server, uint32_t client,
                                        unsigned nth)
{
    char line[ZIRKOSHE_MOST_PLAN];
    int length =
        snprintf(line, sizeof line, "break %lu:%u\n", ZIRKOSHE_CAST(unsigned long, client), nth);

    return zirkoshe_server_plan(server, line, length);
}

/* Forgets all faults that are planned. Returns what zirkoshe_server_plan returns. */
static inline int zirkoshe_server_clear_faults(struct zirkoshe_server *server)
{
    return zirkoshe_server_plan(server, "clear\n", 6);
}

#endif
