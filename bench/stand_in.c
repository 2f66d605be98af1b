/* A server in C for measurements. It answers at once, so that they show what the library and the
 * display for libdrm programs cost. It has one CRTC with three planes, and a thread for each
 * connection. It checks only ids.
 */
#define _GNU_SOURCE
#include <stdio.h>
#include <stdlib.h>

#include "drm_client.h"

/* The mode objects */
enum { CRTC = 1, FIRST_PLANE = 2, PLANES = 3, ENCODER = 5, CONNECTOR = 6 };
/* The places of what is shown: that of the CRTC, and those of planes by their ids */
enum { PLACES = FIRST_PLANE + PLANES };

static _Atomic uint32_t shown[PLACES];
static _Atomic uint32_t last_client, last_handle, last_framebuffer;

/* A connection, with what it read and what it has to answer */
struct visitor {
    int socket;
    size_t taken, answered;
    unsigned char bytes[64 * 1024], answers[64 * 1024];
};

/* Adds an answer with fields of 4 bytes. */
static void answer(struct visitor *visitor, uint16_t number, const uint32_t *values, size_t count)
{
    unsigned char *place = visitor->answers + visitor->answered;
    size_t at;

    zirkoshe_put_at(place, 4, 2 + 4 * count);
    zirkoshe_put_at(place + 4, 2, number);
    for (at = 0; at < count; at++)
        zirkoshe_put_at(place + 6 + 4 * at, 4, values[at]);
    visitor->answered += 6 + 4 * count;
}

#define ANSWER(visitor, number, ...)                                                               \
    answer(visitor, number, (const uint32_t[]){__VA_ARGS__},                                       \
           sizeof((const uint32_t[]){__VA_ARGS__}) / sizeof(uint32_t))

/* Returns whether a call names an object of another kind than it takes. */
static bool names_another(uint16_t number, uint32_t id)
{
    switch (number) {
    case ZIRKOSHE_CALL_MODE_GETPLANE:
        return id < FIRST_PLANE || id >= FIRST_PLANE + PLANES;
    case ZIRKOSHE_CALL_MODE_GETCRTC:
        return id != CRTC;
    case ZIRKOSHE_CALL_MODE_GETCONNECTOR:
        return id != CONNECTOR;
    case ZIRKOSHE_CALL_MODE_GETENCODER:
        return id != ENCODER;
    default:
        return false;
    }
}

/* Answers what a client asks of mode objects. The position of the only CRTC is bit 0. */
static bool answer_of_modes(struct visitor *visitor, uint16_t number, const uint32_t *fields)
{
    if (names_another(number, fields[0])) {
        ANSWER(visitor, ZIRKOSHE_ANSWER_DENIED, ZIRKOSHE_RULE_NO_MODE_OBJECT, ENOENT);
        return true;
    }
    switch (number) {
    case ZIRKOSHE_CALL_MODE_GETRESOURCES:
        ANSWER(visitor, ZIRKOSHE_ANSWER_RESOURCES, 1, CRTC, 1, CONNECTOR, 1, ENCODER, 0);
        return true;
    case ZIRKOSHE_CALL_MODE_GETPLANERESOURCES:
        ANSWER(visitor, ZIRKOSHE_ANSWER_LIST, PLANES, FIRST_PLANE, FIRST_PLANE + 1,
               FIRST_PLANE + 2);
        return true;
    case ZIRKOSHE_CALL_MODE_GETPLANE:
        ANSWER(visitor, ZIRKOSHE_ANSWER_PLANE, shown[fields[0] % PLACES], 1);
        return true;
    case ZIRKOSHE_CALL_MODE_GETCONNECTOR:
        ANSWER(visitor, ZIRKOSHE_ANSWER_NUMBER, ENCODER, 0);
        return true;
    case ZIRKOSHE_CALL_MODE_GETENCODER:
        ANSWER(visitor, ZIRKOSHE_ANSWER_NUMBER, 1, 0);
        return true;
    case ZIRKOSHE_CALL_MODE_GETCRTC:
        ANSWER(visitor, ZIRKOSHE_ANSWER_NUMBER, shown[CRTC], 0);
        return true;
    case ZIRKOSHE_CALL_MODE_SETCRTC:
        shown[CRTC] = fields[1];
        return false;
    case ZIRKOSHE_CALL_MODE_SETPLANE:
        shown[fields[0] % PLACES] = fields[2];
        return false;
    default:
        return false;
    }
}

/* Answers a request, whose fields are read as numbers of 4 bytes. */
static void answer_request(struct visitor *visitor, uint16_t number, const uint32_t *fields)
{
    switch (number) {
    case ZIRKOSHE_HELLO:
        ANSWER(visitor, ZIRKOSHE_ANSWER_OPENED, ++last_client);
        return;
    case ZIRKOSHE_CALL_MODE_CREATE_DUMB:
        ANSWER(visitor, ZIRKOSHE_ANSWER_DUMB, ++last_handle, fields[0] * 4,
               fields[0] * 4 * fields[1], 0);
        return;
    case ZIRKOSHE_CALL_MODE_ADDFB:
        ANSWER(visitor, ZIRKOSHE_ANSWER_NUMBER, ++last_framebuffer, 0);
        return;
    case ZIRKOSHE_CALL_GET_CAP:
        ANSWER(visitor, ZIRKOSHE_ANSWER_NUMBER, 1, 0);
        return;
    case ZIRKOSHE_CALL_MODE_LIST_LESSEES:
        ANSWER(visitor, ZIRKOSHE_ANSWER_LIST, 0);
        return;
    case ZIRKOSHE_CALL_PRIME_HANDLE_TO_FD:
    case ZIRKOSHE_CALL_GEM_FLINK:
        ANSWER(visitor, ZIRKOSHE_ANSWER_NUMBER, fields[0], 0);
        return;
    default:
        if (!answer_of_modes(visitor, number, fields))
            answer(visitor, ZIRKOSHE_ANSWER_DONE, NULL, 0);
    }
}

/* Answers the frames that are whole, and keeps the rest. */
static void answer_frames(struct visitor *visitor)
{
    size_t at = 0;

    visitor->answered = 0;
    while (visitor->taken - at >= 6) {
        struct zirkoshe_fields fields = {visitor->bytes + at, visitor->taken - at, false};
        uint32_t length = zirkoshe_take_u32(&fields), values[5] = {0};
        uint16_t number = (uint16_t)zirkoshe_take(&fields, 2);
        size_t field;

        if (visitor->taken - at < 4 + length)
            break;
        fields.left = length - 2;
        for (field = 0; field < 5 && fields.left >= 4; field++)
            values[field] = zirkoshe_take_u32(&fields);
        answer_request(visitor, number, values);
        at += 4 + length;
    }
    visitor->taken -= at;
    memmove(visitor->bytes, visitor->bytes + at, visitor->taken);
}

static void *attend(void *given)
{
    struct visitor *visitor = given;
    ssize_t more;

    while ((more = read(visitor->socket, visitor->bytes + visitor->taken,
                        sizeof visitor->bytes / 8 - visitor->taken))
           > 0) {
        visitor->taken += (size_t)more;
        answer_frames(visitor);
        if (send(visitor->socket, visitor->answers, visitor->answered, MSG_NOSIGNAL) < 0)
            break;
    }
    close(visitor->socket);
    free(visitor);
    return NULL;
}

/* The argument is the path of the socket. */
int main(int words, char **word)
{
    struct sockaddr_un address = {.sun_family = AF_UNIX};
    int listener = socket(AF_UNIX, SOCK_STREAM | SOCK_CLOEXEC, 0);

    if (words != 2 || strlen(word[1]) >= sizeof address.sun_path)
        return 2;
    strcpy(address.sun_path, word[1]);
    if (bind(listener, (struct sockaddr *)&address, sizeof address) != 0
        || listen(listener, 64) != 0)
        return 1;
    for (;;) {
        struct visitor *visitor = calloc(1, sizeof *visitor);
        pthread_t thread;

        if (visitor == NULL)
            return 1;
        visitor->socket = accept(listener, NULL, NULL);
        if (visitor->socket < 0 || pthread_create(&thread, NULL, attend, visitor) != 0)
            return 1;
        pthread_detach(thread);
    }
}
