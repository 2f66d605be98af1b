/* The display's control socket. A line is answered by a line, which is a JSON object:
 *
 *     screens             what each CRTC shows
 *     picture CRTC EVERY  the size of a picture; after the line, red, green and blue of each pixel.
 *                         It has each EVERY-th pixel of each EVERY-th row.
 *
 *     plug CONNECTOR      connects a monitor
 *     unplug CONNECTOR    disconnects it
 *
 * If a line is refused, the object has `error`, and `errno`. */
#include "controls.h"

#include "display.h"
#include "pictures.h"

#include "connectors.h"

#include <ctype.h>
#include <stdarg.h>
#include <stdio.h>
#include <stdlib.h>
#include <sys/time.h>

#define MOST_LINE 256
#define MOST_ANSWER (64 * 1024)
#define STACK ((size_t)2 * 1024 * 1024)
/* The most connections at once. A further one is closed. */
#define MOST_CONTROLS 16
/* How long an answer may take to be read */
#define MOST_SECONDS 10

struct control {
    int socket;
    struct turn turn;
    struct screen_copy copy;
    char input[MOST_LINE]; /* what was received and is not answered yet */
    size_t received;
    char line[MOST_LINE];
    char answer[MOST_ANSWER];
    size_t length;
    uint8_t *pixels; /* which follow the answer, or NULL */
    size_t size;
};

static atomic_uint count_controls;
/* Pictures are taken one by one, since each takes much memory. */
static pthread_mutex_t one_picture = PTHREAD_MUTEX_INITIALIZER;

__attribute__((format(printf, 2, 3))) static void say(struct control *control, const char *form,
                                                      ...)
{
    size_t room = sizeof control->answer - control->length;
    va_list values;
    int length;

    va_start(values, form);
    length = vsnprintf(control->answer + control->length, room, form, values);
    va_end(values);
    control->length += length < 0 ? 0 : (size_t)length < room ? (size_t)length : room - 1;
}

static void refuse(struct control *control, int error, const char *reason)
{
    control->length = 0;
    say(control, "{\"error\": \"%s\", \"errno\": %d}", reason, error);
}

static void begin_turn(struct control *control, bool is_reading)
{
    display_lock_to_begin();
    turn_queue(&control->turn, is_reading);
    turn_wait(&control->turn);
}

static void end_turn(struct control *control)
{
    turn_end(&control->turn);
    display_unlock();
}

/* Finds the mode objects of the device, in its own turn. */
static const struct topology *find_topology(struct control *control)
{
    const struct topology *topology;
    int failed;

    begin_turn(control, false);
    failed = screens_topology(&topology);
    end_turn(control);
    if (failed)
        refuse(control, -failed, "the display can't list the device's mode objects");
    return failed ? NULL : topology;
}

static void say_plane(struct control *control, const struct shown_plane *plane)
{
    static const char *const kinds[] = {"primary", "overlay", "cursor"};
    const struct plane_state *state = &plane->state;
    const struct framebuffer *framebuffer = &plane->framebuffer;

    say(control,
        "{\"plane\": %u, \"type\": \"%s\", \"framebuffer\": %u, \"client\": %u, \"format\": %u",
        plane->id, kinds[plane->kind], state->fb_id, framebuffer->client, framebuffer->format);
    say(control, ", \"x\": %d, \"y\": %d, \"width\": %u, \"height\": %u", (int32_t)state->crtc_x,
        (int32_t)state->crtc_y, state->crtc_w, state->crtc_h);
    say(control, ", \"source\": [%u, %u, %u, %u]}", state->src_x, state->src_y, state->src_w,
        state->src_h);
}

static void say_screen(struct control *control, const struct screen *screen)
{
    uint32_t at;

    say(control, "{\"crtc\": %u, \"connector\": %u, \"active\": %s, \"width\": %u, \"height\": %u",
        screen->crtc_id, screen->connector_id, screen->is_active ? "true" : "false",
        screen->mode.hdisplay, screen->mode.vdisplay);
    say(control, ", \"refresh\": %u, \"frames\": %llu, \"planes\": [", screen->mode.vrefresh,
        (unsigned long long)screen->frames);
    for (at = 0; at < screen->count; at++) {
        say(control, at > 0 ? ", " : "");
        say_plane(control, &screen->planes[at]);
    }
    say(control, "]}");
}

static void answer_screens(struct control *control)
{
    const struct topology *topology = find_topology(control);
    uint32_t at;

    if (topology == NULL)
        return;
    begin_turn(control, true);
    say(control, "{\"screens\": [");
    for (at = 0; at < topology->count_crtcs; at++) {
        screen_find(topology, topology->crtcs[at], &control->copy.screen);
        say(control, at > 0 ? ", " : "");
        say_screen(control, &control->copy.screen);
    }
    say(control, "]}");
    end_turn(control);
}

/* Copies what a CRTC shows. What would change it waits until the copy is made, but the lock is free
 * meanwhile. */
static int copy_screen(struct control *control, const struct topology *topology, uint32_t crtc_id)
{
    int failed;

    begin_turn(control, true);
    screen_find(topology, crtc_id, &control->copy.screen);
    failed = screen_copy_open(&control->copy);
    display_unlock();
    if (!failed)
        failed = screen_copy_fill(&control->copy);
    display_lock();
    end_turn(control);
    return failed;
}

static void take_picture(struct control *control, const struct topology *topology, uint32_t crtc_id)
{
    int failed;

    pthread_mutex_lock(&one_picture);
    failed = copy_screen(control, topology, crtc_id);
    if (!failed)
        control->pixels = screen_copy_compose(&control->copy, &control->size);
    screen_copy_free(&control->copy);
    pthread_mutex_unlock(&one_picture);
    if (failed == -EFBIG)
        refuse(control, EFBIG, "the picture would be too large");
    else if (failed || control->pixels == NULL)
        refuse(control, ENOMEM, "there is no memory for the picture");
    else
        say(control, "{\"width\": %zu, \"height\": %zu}", control->copy.width,
            control->copy.height);
}

/* Reads a number of a line, and moves to what follows it; 0 if there is none. */
static uint32_t take_number(const char **word)
{
    char *end;
    unsigned long number = isdigit((unsigned char)**word) ? strtoul(*word, &end, 10) : 0;

    if (isdigit((unsigned char)**word))
        *word = *end == ' ' ? end + 1 : end;
    return number <= UINT32_MAX ? (uint32_t)number : 0;
}

static void answer_picture(struct control *control, const char *words)
{
    const struct topology *topology = find_topology(control);
    uint32_t crtc_id = take_number(&words), every = take_number(&words);

    if (topology == NULL)
        return;
    control->copy.every = every;
    if (*words != '\0' || every == 0 || every > UINT16_MAX)
        refuse(control, EINVAL, "a picture is of a CRTC, with each pixel of a number from 1");
    else if (!topology_has_crtc(topology, crtc_id))
        refuse(control, ENOENT, "there is no such CRTC");
    else
        take_picture(control, topology, crtc_id);
}

/* Connects a monitor, or disconnects it. */
static void answer_plug(struct control *control, const char *word,
                        void (*change)(uint32_t connector_id))
{
    const struct topology *topology = find_topology(control);
    uint32_t connector_id = take_number(&word);

    if (topology == NULL)
        return;
    if (*word != '\0' || topology_connector(topology, connector_id) == NULL) {
        refuse(control, ENOENT, "there is no such connector");
        return;
    }
    begin_turn(control, false);
    change(connector_id);
    end_turn(control);
    say(control, "{}");
}

static void answer(struct control *control)
{
    control->length = 0;
    control->pixels = NULL;
    if (strcmp(control->line, "screens") == 0)
        answer_screens(control);
    else if (strncmp(control->line, "picture ", 8) == 0)
        answer_picture(control, control->line + 8);
    else if (strncmp(control->line, "plug ", 5) == 0)
        answer_plug(control, control->line + 5, connector_plug);
    else if (strncmp(control->line, "unplug ", 7) == 0)
        answer_plug(control, control->line + 7, connector_unplug);
    else
        refuse(control, EINVAL, "unknown line");
}

static bool send_all(int socket, const void *bytes, size_t size)
{
    const uint8_t *rest = bytes;
    ssize_t sent = 0;

    while (size > 0 && sent >= 0) {
        sent = send(socket, rest, size, MSG_NOSIGNAL);
        rest += sent > 0 ? sent : 0;
        size -= sent > 0 ? (size_t)sent : 0;
    }
    return size == 0;
}

static bool send_answer(struct control *control)
{
    bool is_sent;

    say(control, "\n");
    is_sent =
        send_all(control->socket, control->answer, control->length)
        && (control->pixels == NULL || send_all(control->socket, control->pixels, control->size));
    free(control->pixels);
    return is_sent;
}

/* Takes the first line of what was received, if its end is there or no more fits. One that is too
 * long, or has an end within, is left empty. */
static bool take_line(struct control *control)
{
    const char *end = memchr(control->input, '\n', control->received);
    size_t length = end == NULL ? 0 : (size_t)(end - control->input);
    size_t taken = end == NULL ? control->received : length + 1;

    if (end == NULL && control->received < sizeof control->input)
        return false;
    memcpy(control->line, control->input, length);
    control->line[length] = '\0';
    if (strlen(control->line) != length)
        control->line[0] = '\0';
    control->received -= taken;
    memmove(control->input, control->input + taken, control->received);
    return true;
}

/* Receives a line; false at the end. */
static bool receive_line(struct control *control)
{
    ssize_t length = 1;
    bool is_taken = take_line(control);

    while (!is_taken && length > 0) {
        length = recv(control->socket, control->input + control->received,
                      sizeof control->input - control->received, 0);
        control->received += length > 0 ? (size_t)length : 0;
        is_taken = take_line(control);
    }
    return is_taken;
}

/* What the thread of a connection does. */
static void *attend(void *begun)
{
    struct control *control = begun;
    struct task task = {.peer = NULL};
    bool is_open = true;

    task_begin(&task);
    while (is_open && receive_line(control)) {
        answer(control);
        is_open = send_answer(control);
    }
    close(control->socket);
    turn_free(&control->turn);
    free(control);
    count_controls--;
    return NULL;
}

static bool begin_thread(struct control *control)
{
    pthread_attr_t form;
    pthread_t thread;
    bool has_begun;

    if (pthread_attr_init(&form) != 0)
        return false;
    has_begun = pthread_attr_setstacksize(&form, STACK) == 0
                && pthread_attr_setdetachstate(&form, PTHREAD_CREATE_DETACHED) == 0
                && pthread_create(&thread, &form, attend, control) == 0;
    pthread_attr_destroy(&form);
    return has_begun;
}

void control_accept(int listener)
{
    const struct timeval most = {MOST_SECONDS, 0};
    int fd = accept4(listener, NULL, NULL, SOCK_CLOEXEC);
    struct control *made = fd < 0 ? NULL : calloc(1, sizeof *made);

    if (made != NULL && count_controls < MOST_CONTROLS
        && setsockopt(fd, SOL_SOCKET, SO_SNDTIMEO, &most, sizeof most) == 0) {
        made->socket = fd;
        turn_prepare(&made->turn);
        count_controls++;
        if (begin_thread(made))
            return;
        count_controls--;
        turn_free(&made->turn);
    }
    if (fd >= 0)
        close(fd);
    free(made);
}
