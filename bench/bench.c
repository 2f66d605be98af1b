/* Four loads on drm_server.
 *
 *     bench SERVER PLAIN [trips | handles | traces | scripts] [REQUESTS [ROUNDS]]
 *
 * SERVER is the program drm_server, and PLAIN the program of plain.rs, or - if there is none; REQUESTS is the number of
 * requests of one measurement of the first load, over all connections (90,000 by default: a device notes 100,000 steps at
 * most), and ROUNDS how often it is measured (5 by default). Both are also those of the third, ROUNDS that of the fourth.
 *
 * The first, trips: requests per second, round trips, context switches and futex calls, beside a plain echo of the same frames
 * over a Unix socket, in rounds that measure the echo and the server in turn; each figure is the median of the rounds. Each
 * connection is a thread of this program that sends VERSION, waits for the answer, and sends the next. The echo is another
 * process with a thread for each connection, as the server has. Futex calls are counted by strace in its own round.
 *
 * The second, handles: what a step costs among many handles. One connection makes N buffers, then reads a stamp, closes
 * and makes a handle in their middle, over and over; a root client asks the last page of an audit of the handles; then the
 * connection is closed, while another asks VERSION.
 *
 * The third, traces: the round trips of the first while the server writes no trace, and while it writes one, in turn.
 *
 * The fourth, scripts: what a line of a script costs, beside PLAIN. A figure is the difference of a long and a short script, so
 * that the start of the program is not in it.
 */
#include <dirent.h>
#include <errno.h>
#include <fcntl.h>
#include <pthread.h>
#include <signal.h>
#include <stddef.h>
#include <stdint.h>
#include <stdio.h>
#include <stdlib.h>
#include <string.h>
#include <sys/socket.h>
#include <sys/stat.h>
#include <sys/un.h>
#include <sys/wait.h>
#include <time.h>
#include <unistd.h>

#define MOST_CONNECTIONS 64
#define MOST_FRAME 1028
#define MOST_TRIP_ROUNDS 99
#define TRACED_REQUESTS 16000 /* while strace counts */

static const uint8_t HELLO[18] = {14, 0, 0, 0, 0, 1, 1, 0, 0, 0, 0, 0, 0, 0, 0, 0, 0, 0};
static const uint8_t VERSION[6] = {2, 0, 0, 0, 0, 0};

struct connection {
    const char *path;
    long requests;
    double *micros, ended; /* the round trip of each request, and when the last one ended */
    pthread_barrier_t *together; /* opened, begun, answered and closing are four waits at it */
};

/* Requests per second, round trips in microseconds, and context switches of the other process for each request. */
struct measured {
    double per_second, median, slow, switches;
};

static void fail(const char *what) {
    fprintf(stderr, "bench: %s: %s\n", what, strerror(errno));
    exit(1);
}

static double now(void) {
    struct timespec time;
    clock_gettime(CLOCK_MONOTONIC, &time);
    return time.tv_sec * 1e6 + time.tv_nsec / 1e3;
}

static int read_whole(int socket, uint8_t *buffer, size_t count) {
    for (size_t had = 0; had < count;) {
        ssize_t got = read(socket, buffer + had, count - had);
        if (got <= 0)
            return 0;
        had += got;
    }
    return 1;
}

/* Reads one frame, and returns its size; 0 where there is none. */
static size_t read_frame(int socket, uint8_t *frame) {
    if (!read_whole(socket, frame, 4))
        return 0;
    size_t length = frame[0] | frame[1] << 8 | frame[2] << 16 | (size_t)frame[3] << 24;
    if (length < 2 || length > MOST_FRAME - 4 || !read_whole(socket, frame + 4, length))
        return 0;
    return 4 + length;
}

static void write_whole(int socket, const uint8_t *bytes, size_t count) {
    for (size_t sent = 0; sent < count;) {
        ssize_t took = write(socket, bytes + sent, count - sent);
        if (took <= 0)
            fail("write");
        sent += took;
    }
}

static struct sockaddr_un address_of(const char *path) {
    struct sockaddr_un address = {.sun_family = AF_UNIX};
    snprintf(address.sun_path, sizeof address.sun_path, "%s", path);
    return address;
}

/* Connects to a socket that is perhaps still to be made. */
static int connect_to(const char *path) {
    struct sockaddr_un address = address_of(path);
    for (int tries = 0; tries < 2000; tries++) {
        int connected = socket(AF_UNIX, SOCK_STREAM, 0);
        if (connected < 0)
            fail("socket");
        if (connect(connected, (struct sockaddr *)&address, sizeof address) == 0)
            return connected;
        close(connected);
        usleep(5000);
    }
    fail(path);
    return -1;
}

static void *talk(void *argument) {
    struct connection *own = argument;
    uint8_t frame[MOST_FRAME];
    int server = connect_to(own->path);
    write_whole(server, HELLO, sizeof HELLO);
    if (!read_frame(server, frame))
        fail("the hello was not answered");
    pthread_barrier_wait(own->together);
    pthread_barrier_wait(own->together);
    for (long i = 0; i < own->requests; i++) {
        double start = now();
        write_whole(server, VERSION, sizeof VERSION);
        if (!read_frame(server, frame))
            fail("a request was not answered");
        own->micros[i] = now() - start;
    }
    own->ended = now();
    pthread_barrier_wait(own->together);
    pthread_barrier_wait(own->together);
    close(server);
    return NULL;
}

/* The context switches in one status of a task, those that it asked for and others. */
static long switches_in(const char *path) {
    char line[200];
    long count, all = 0;
    FILE *status = fopen(path, "r");
    while (status && fgets(line, sizeof line, status))
        if (sscanf(line, "voluntary_ctxt_switches: %ld", &count) == 1 || sscanf(line, "nonvoluntary_ctxt_switches: %ld", &count) == 1)
            all += count;
    if (status)
        fclose(status);
    return all;
}

/* The context switches of all threads of a process that live. */
static long switches_of(pid_t process) {
    char path[320];
    long all = 0;
    snprintf(path, sizeof path, "/proc/%d/task", process);
    DIR *tasks = opendir(path);
    if (!tasks)
        fail(path);
    for (struct dirent *task; (task = readdir(tasks));) {
        snprintf(path, sizeof path, "/proc/%d/task/%s/status", process, task->d_name);
        if (task->d_name[0] != '.')
            all += switches_in(path);
    }
    closedir(tasks);
    return all;
}

static int rising(const void *one, const void *other) {
    double a = *(const double *)one, b = *(const double *)other;
    return (a > b) - (a < b);
}

/* Sends N requests over N connections to the process that serves the socket. */
static struct measured measure(pid_t process, const char *path, int connections, long requests) {
    pthread_t threads[MOST_CONNECTIONS];
    struct connection own[MOST_CONNECTIONS];
    pthread_barrier_t together;
    long each = requests / connections, all = each * connections;
    double *micros = malloc(all * sizeof *micros);
    if (!micros)
        fail("malloc");
    pthread_barrier_init(&together, NULL, connections + 1);
    for (int i = 0; i < connections; i++) {
        own[i] = (struct connection){path, each, micros + i * each, 0, &together};
        if (pthread_create(&threads[i], NULL, talk, &own[i]))
            fail("a thread");
    }
    pthread_barrier_wait(&together);
    long switches = switches_of(process);
    double start = now(), end = start;
    pthread_barrier_wait(&together);
    pthread_barrier_wait(&together);
    switches = switches_of(process) - switches;
    pthread_barrier_wait(&together);
    for (int i = 0; i < connections; i++) {
        pthread_join(threads[i], NULL);
        end = own[i].ended > end ? own[i].ended : end;
    }
    qsort(micros, all, sizeof *micros, rising);
    struct measured result = {all / (end - start) * 1e6, micros[all / 2], micros[all * 99 / 100], (double)switches / all};
    free(micros);
    return result;
}

static void *echo(void *argument) {
    int client = (int)(intptr_t)argument;
    uint8_t frame[MOST_FRAME];
    for (size_t size; (size = read_frame(client, frame));)
        write_whole(client, frame, size);
    close(client);
    return NULL;
}

/* Serves as an echo, in its own process: N connections. */
static int serve_echo(const char *path, int connections) {
    struct sockaddr_un address = address_of(path);
    int listener = socket(AF_UNIX, SOCK_STREAM, 0);
    if (listener < 0 || bind(listener, (struct sockaddr *)&address, sizeof address) || listen(listener, 64))
        fail(path);
    pthread_t threads[MOST_CONNECTIONS];
    for (int i = 0; i < connections; i++) {
        int client = accept(listener, NULL, NULL);
        if (client < 0 || pthread_create(&threads[i], NULL, echo, (void *)(intptr_t)client))
            fail("the echo");
    }
    for (int i = 0; i < connections; i++)
        pthread_join(threads[i], NULL);
    return 0;
}

/* Starts a program with these words: where a file for a trace is named, under strace, which counts its futex calls. */
static pid_t start(char **words, const char *trace) {
    char *traced[32] = {"strace", "-f", "--seccomp-bpf", "-c", "-e", "trace=futex", "-o", (char *)trace};
    int count = trace ? 8 : 0;
    for (; *words; words++)
        traced[count++] = *words;
    traced[count] = NULL;
    fflush(stdout);
    pid_t child = fork();
    if (child != 0)
        return child;
    if (!freopen("/dev/null", "w", stdout))
        fail("/dev/null");
    execvp(traced[0], traced);
    fail(traced[0]);
    return -1;
}

static pid_t start_echo(const char *path, int connections, const char *trace) {
    char count[16], self[300];
    ssize_t length = readlink("/proc/self/exe", self, sizeof self - 1);
    if (length < 0)
        fail("/proc/self/exe");
    self[length] = 0;
    snprintf(count, sizeof count, "%d", connections);
    return start((char *[]){self, "--echo", (char *)path, count, NULL}, trace);
}

/* Starts the server for this number of connections. With a file for it, it writes a trace. */
static pid_t start_server(const char *server, const char *folder, const char *path, int connections, int roots, const char *written,
                          const char *trace) {
    char render[160], root[160], count[16], root_count[16];
    snprintf(render, sizeof render, "%s/render", folder);
    snprintf(root, sizeof root, "%s/root", folder);
    snprintf(count, sizeof count, "%d", connections);
    snprintf(root_count, sizeof root_count, "%d", roots);
    char *words[] = {(char *)server, "serve", "--card", (char *)path, "--render", render, "--root", root,
                     "--cards", count, "--renders", "0", "--roots", root_count, written ? "--trace" : NULL, (char *)written, NULL};
    return start(words, trace);
}

static void finish(pid_t child) {
    int status;
    if (waitpid(child, &status, 0) < 0 || !WIFEXITED(status) || WEXITSTATUS(status))
        fail("a server ended with a fault");
}

/* Sends a request, waits for its answer, and returns the round trip. A denial ends the program. */
static double ask(int server, const uint8_t *request, size_t size, size_t *answered) {
    uint8_t frame[MOST_FRAME];
    double start = now();
    write_whole(server, request, size);
    size_t length = read_frame(server, frame);
    double micros = now() - start;
    if (length < 6 || frame[5] == 0x20) {
        fprintf(stderr, "bench: the server denied a request\n");
        exit(1);
    }
    if (answered)
        *answered = length;
    return micros;
}

/* A request of a number and one or two fields of 32 bits. */
static size_t put_request(uint8_t *frame, uint16_t number, int fields, uint32_t one, uint32_t two) {
    uint32_t length = 2 + 4 * fields, words[2] = {one, two};
    for (int i = 0; i < 4; i++)
        frame[i] = length >> 8 * i;
    frame[4] = number;
    frame[5] = number >> 8;
    for (int i = 0; i < 4 * fields; i++)
        frame[6 + i] = words[i / 4] >> 8 * (i % 4);
    return 4 + length;
}

static int open_client(const char *path) {
    int server = connect_to(path);
    ask(server, HELLO, sizeof HELLO, NULL);
    return server;
}

static double median_of(double *micros, int count) {
    qsort(micros, count, sizeof *micros, rising);
    return micros[count / 2];
}

#define ROUNDS 500
#define HANDLES 6 /* the kind of an audit that lists handles */

/* What a step costs, in microseconds: making, reading, closing and making again, the last page of an audit, the whole closing
 * of the connection, and the slowest VERSION of another meanwhile. */
struct costs {
    double make, read, close, remake, page, closing, waited;
};

static double make_one(int server) {
    uint8_t frame[20];
    size_t size = put_request(frame, 0x40, 2, 4096, 0); /* BUF_CREATE: a size of 64 bits */
    return ask(server, frame, size, NULL);
}

/* Makes N buffers, and returns the median of the last ones. */
static double make_all(int server, int handles) {
    static double micros[ROUNDS];
    for (int i = 0; i < handles; i++)
        micros[i % ROUNDS] = make_one(server);
    return median_of(micros, handles < ROUNDS ? handles : ROUNDS);
}

static void change_the_middle(int server, uint32_t handle, struct costs *costs) {
    static double reads[ROUNDS], closes[ROUNDS], remakes[ROUNDS];
    uint8_t frame[20];
    for (int i = 0; i < ROUNDS; i++) {
        reads[i] = ask(server, frame, put_request(frame, 0x42, 1, handle, 0), NULL);   /* STAMP_READ */
        closes[i] = ask(server, frame, put_request(frame, 0x09, 1, handle, 0), NULL);  /* GEM_CLOSE */
        remakes[i] = make_one(server);
    }
    costs->read = median_of(reads, ROUNDS);
    costs->close = median_of(closes, ROUNDS);
    costs->remake = median_of(remakes, ROUNDS);
}

/* Closes the connection, and asks VERSION until no handle is left. */
static void close_among(int server, int other, int root, struct costs *costs) {
    uint8_t audit[20];
    size_t size = put_request(audit, 0x45, 2, HANDLES, 0), empty, length;
    double start = now();
    costs->waited = 0;
    close(server);
    put_request(audit, 0x45, 2, HANDLES, 0x7FFFFFFF);
    ask(root, audit, size, &empty); /* a page past the last row */
    put_request(audit, 0x45, 2, HANDLES, 0);
    do {
        double micros = ask(other, VERSION, sizeof VERSION, NULL);
        if (micros > costs->waited)
            costs->waited = micros;
        ask(root, audit, size, &length);
    } while (length != empty);
    costs->closing = now() - start;
}

static struct costs measure_among(const char *card, const char *root_path, int handles) {
    static double pages[ROUNDS];
    struct costs costs;
    uint8_t audit[20];
    int server = open_client(card), other = open_client(card), root = open_client(root_path);
    costs.make = make_all(server, handles);
    change_the_middle(server, handles / 2 + 1, &costs);
    size_t size = put_request(audit, 0x45, 2, HANDLES, handles < 16 ? 0 : handles - 16);
    for (int i = 0; i < ROUNDS; i++)
        pages[i] = ask(root, audit, size, NULL);
    costs.page = median_of(pages, ROUNDS);
    close_among(server, other, root, &costs);
    close(other);
    close(root);
    return costs;
}

static void load_of_handles(const char *server, const char *folder, const char *path) {
    static const int handles[] = {10, 1000, 16000, 60000};
    struct costs first = {0};
    char root[160];
    snprintf(root, sizeof root, "%s/root", folder);
    printf("\n%8s  %-29s  %-29s  %9s  %22s  %s\n", "", "us: make, read, close, again", "each / that among 10", "page us",
           "closing us, a handle", "slowest other us");
    fflush(stdout);
    for (size_t i = 0; i < sizeof handles / sizeof *handles; i++) {
        pid_t child = start_server(server, folder, path, 2, 1, NULL, NULL);
        struct costs costs = measure_among(path, root, handles[i]);
        finish(child);
        if (i == 0)
            first = costs;
        printf("%8d  %6.1f %6.1f %6.1f %6.1f    %6.2f %6.2f %6.2f %6.2f    %9.1f  %12.0f %8.2f  %10.0f\n", handles[i], costs.make,
               costs.read, costs.close, costs.remake, costs.make / first.make, costs.read / first.read, costs.close / first.close,
               costs.remake / first.remake, costs.page, costs.closing, costs.closing / handles[i], costs.waited);
        fflush(stdout);
    }
}

/* What the programs are, and where their sockets and files lie. */
struct place {
    const char *server, *plain, *folder;
    char path[160], trace[160], written[160];
};

/* What is measured: the echo, the server, or the server while it writes a trace. */
enum measurable { ECHO, SERVER, TRACING };

static struct measured measure_one(struct place *place, enum measurable what, int connections, long requests, const char *trace) {
    snprintf(place->path, sizeof place->path, "%s/%s", place->folder, what == ECHO ? "echo" : "card");
    snprintf(place->written, sizeof place->written, "%s/written", place->folder);
    const char *written = what == TRACING ? place->written : NULL;
    pid_t child = what == ECHO ? start_echo(place->path, connections, trace)
                               : start_server(place->server, place->folder, place->path, connections, 0, written, trace);
    struct measured result = measure(child, place->path, connections, requests);
    finish(child);
    unlink(place->path);
    if (written)
        unlink(written);
    return result;
}

/* The futex calls in a summary of strace. */
static double calls_in(const char *path) {
    char line[200];
    double calls = 0, found;
    FILE *summary = fopen(path, "r");
    while (summary && fgets(line, sizeof line, summary))
        if (strstr(line, " futex") && sscanf(line, "%*f %*f %*f %lf", &found) == 1)
            calls = found;
    if (summary)
        fclose(summary);
    return calls;
}

/* Whether strace is there and may trace. */
static int has_strace(void) {
    return system("strace -f --seccomp-bpf -c -e trace=futex -o /dev/null true > /dev/null 2>&1") == 0;
}

/* The futex calls for each request, or "-" where there is no strace. The calls that start and join threads are among them. */
static const char *futexes_of(struct place *place, enum measurable what, int connections) {
    static char texts[2][16];
    char *text = texts[what == SERVER];
    if (!has_strace())
        return "-";
    snprintf(place->trace, sizeof place->trace, "%s/trace", place->folder);
    measure_one(place, what, connections, TRACED_REQUESTS, place->trace);
    snprintf(text, sizeof texts[0], "%.3f", calls_in(place->trace) / TRACED_REQUESTS);
    unlink(place->trace);
    return text;
}

/* One figure of all rounds. */
static double middle(struct measured *rounds, int count, size_t figure) {
    double values[MOST_TRIP_ROUNDS];
    for (int i = 0; i < count; i++)
        values[i] = *(double *)((char *)&rounds[i] + figure);
    return median_of(values, count);
}

static void print_trips(struct measured *rounds, int count) {
    printf("  %10.0f %6.1f %7.1f %6.3f", middle(rounds, count, offsetof(struct measured, per_second)),
           middle(rounds, count, offsetof(struct measured, median)), middle(rounds, count, offsetof(struct measured, slow)),
           middle(rounds, count, offsetof(struct measured, switches)));
}

static const int connections[] = {1, 4, 16, 64};
#define COUNTS (sizeof connections / sizeof *connections)

/* The rounds of two, one after the other in turn, and the ratios of the second's requests per second to the first's, rising. */
struct compared {
    struct measured first[MOST_TRIP_ROUNDS], second[MOST_TRIP_ROUNDS];
    double ratios[MOST_TRIP_ROUNDS], ratio;
};

static void compare(struct compared *found, struct place *place, enum measurable first, enum measurable second, int connections,
                    long requests, int count) {
    for (int round = 0; round < count; round++) {
        found->first[round] = measure_one(place, first, connections, requests, NULL);
        found->second[round] = measure_one(place, second, connections, requests, NULL);
        found->ratios[round] = found->second[round].per_second / found->first[round].per_second;
    }
    found->ratio = median_of(found->ratios, count);
}

static void print_ratios(const struct compared *found, int count) {
    printf("  %10.2f %6.2f %5.2f\n", found->ratio, found->ratios[0], found->ratios[count - 1]);
    fflush(stdout);
}

/* Round trips next to those of an echo, for each count of connections. */
static void load_of_round_trips(struct place *place, long requests, int count) {
    printf("%11s  %39s  %39s  %s\n", "", "drm_server", "echo", "server / echo");
    printf("connections  requests/s 50%% us  99%% us switch  futex  requests/s 50%% us  99%% us switch  futex  requests/s  least  most\n");
    fflush(stdout);
    for (size_t i = 0; i < COUNTS; i++) {
        struct compared found;
        compare(&found, place, ECHO, SERVER, connections[i], requests, count);
        printf("%11d", connections[i]);
        print_trips(found.second, count);
        printf(" %6s", futexes_of(place, SERVER, connections[i]));
        print_trips(found.first, count);
        printf(" %6s", futexes_of(place, ECHO, connections[i]));
        print_ratios(&found, count);
    }
}

static void print_rate(struct measured *rounds, int count) {
    printf("  %10.0f %6.1f %7.1f", middle(rounds, count, offsetof(struct measured, per_second)),
           middle(rounds, count, offsetof(struct measured, median)), middle(rounds, count, offsetof(struct measured, slow)));
}

/* Round trips without a trace and with one, for each count of connections. */
static void load_of_traces(struct place *place, long requests, int count) {
    printf("\n%11s  %25s  %25s  %s\n", "", "without a trace", "with a trace", "with / without");
    printf("connections  requests/s 50%% us  99%% us  requests/s 50%% us  99%% us  requests/s  least  most\n");
    fflush(stdout);
    for (size_t i = 0; i < COUNTS; i++) {
        struct compared found;
        compare(&found, place, SERVER, TRACING, connections[i], requests, count);
        printf("%11d", connections[i]);
        print_rate(found.first, count);
        print_rate(found.second, count);
        print_ratios(&found, count);
    }
}

#define SHORT_SCRIPT 1000
#define LONG_SCRIPT 60000

/* Lines of a script that are repeated, and those before them. */
struct script {
    const char *kind, *before, *lines[2];
    int count;
};

static const struct script scripts[] = {
    {"VERSION", "", {"a version"}, 1},
    {"BUF_CREATE", "", {"a buf_create 4096"}, 1},
    {"BUF_CREATE, GEM_CLOSE", "", {"a buf_create 4096", "a gem_close 1"}, 2},
    {"STAMP_WRITE, STAMP_READ", "a buf_create 4096\n", {"a stamp_write 1 7", "a stamp_read 1"}, 2},
};

static void write_script(const char *path, const struct script *script, int lines) {
    FILE *file = fopen(path, "w");
    if (!file)
        fail(path);
    fprintf(file, "open a card\n%s", script->before);
    for (int i = 0; i < lines; i++)
        fprintf(file, "%s\n", script->lines[i % script->count]);
    if (fclose(file))
        fail(path);
}

/* How long a program takes over a script, in microseconds. */
static double run_script(const char *program, const char *path) {
    double begun = now();
    pid_t child = fork();
    if (child == 0) {
        int script = open(path, O_RDONLY), answers = open("/dev/null", O_WRONLY);
        if (script < 0 || answers < 0 || dup2(script, 0) < 0 || dup2(answers, 1) < 0)
            fail(path);
        execl(program, program, "run", (char *)NULL);
        fail(program);
    }
    finish(child);
    return now() - begun;
}

/* What a line costs a program, in microseconds: the median of the rounds. */
static double cost_of_line(const char *program, const char *short_path, const char *long_path, int count) {
    double costs[MOST_TRIP_ROUNDS];
    for (int i = 0; i < count; i++)
        costs[i] = (run_script(program, long_path) - run_script(program, short_path)) / (LONG_SCRIPT - SHORT_SCRIPT);
    return median_of(costs, count);
}

/* What a line of a script costs, next to the plain program. */
static void load_of_scripts(struct place *place, int count) {
    int has_plain = strcmp(place->plain, "-") != 0;
    snprintf(place->trace, sizeof place->trace, "%s/short", place->folder);
    snprintf(place->written, sizeof place->written, "%s/long", place->folder);
    printf("\n%-24s  %10s  %10s  %s\n", "us for a line of a script", "drm_server", "plain", "drm_server / plain");
    for (size_t i = 0; i < sizeof scripts / sizeof *scripts; i++) {
        write_script(place->trace, &scripts[i], SHORT_SCRIPT);
        write_script(place->written, &scripts[i], LONG_SCRIPT);
        double cost = cost_of_line(place->server, place->trace, place->written, count);
        printf("%-25s  %10.2f", scripts[i].kind, cost);
        if (has_plain) {
            double plain = cost_of_line(place->plain, place->trace, place->written, count);
            printf("  %10.2f  %.1f", plain, cost / plain);
        }
        printf("\n");
        fflush(stdout);
    }
    unlink(place->trace);
    unlink(place->written);
}

static int usage(void) {
    fprintf(stderr, "usage: bench SERVER PLAIN [trips | handles | traces | scripts] [REQUESTS [ROUNDS]], with at least %d REQUESTS and 1 to %d ROUNDS\n",
            MOST_CONNECTIONS, MOST_TRIP_ROUNDS);
    return 2;
}

static int is_word(const char *word, const char *wanted) {
    return strcmp(word, wanted) == 0;
}

/* Whether a word names a load. */
static int is_load(const char *word) {
    return is_word(word, "trips") || is_word(word, "handles") || is_word(word, "traces") || is_word(word, "scripts");
}

int main(int count, char **words) {
    if (count == 4 && !strcmp(words[1], "--echo"))
        return serve_echo(words[2], atoi(words[3]));
    if (count < 3)
        return usage();
    char folder[] = "/tmp/drm_bench_XXXXXX";
    struct place place = {words[1], words[2], folder, "", "", ""};
    const char *only = count > 3 && is_load(words[3]) ? words[3] : NULL;
    char **numbers = words + 3 + (only != NULL);
    long requests = numbers < words + count ? atol(numbers[0]) : 90000;
    long rounds = numbers + 1 < words + count ? atol(numbers[1]) : 5;
    if (requests < MOST_CONNECTIONS || rounds < 1 || rounds > MOST_TRIP_ROUNDS)
        return usage();
    if (!mkdtemp(folder))
        fail("a folder for the sockets");
    signal(SIGPIPE, SIG_IGN);
    if (!only || is_word(only, "trips"))
        load_of_round_trips(&place, requests, rounds);
    snprintf(place.path, sizeof place.path, "%s/card", folder);
    if (!only || is_word(only, "handles"))
        load_of_handles(words[1], folder, place.path);
    if (!only || is_word(only, "traces"))
        load_of_traces(&place, requests, rounds);
    if (!only || is_word(only, "scripts"))
        load_of_scripts(&place, rounds);
    rmdir(folder);
    return 0;
}
