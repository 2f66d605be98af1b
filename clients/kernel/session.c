// A script's clients: openings, closings, and the capability that makes a client root.
#include "session.h"

#include <drm.h>
#include <errno.h>
#include <fcntl.h>
#include <linux/capability.h>
#include <stdarg.h>
#include <stdio.h>
#include <stdlib.h>
#include <string.h>
#include <sys/ioctl.h>
#include <sys/syscall.h>
#include <unistd.h>

#include "calls.h"

// an id that the kernel allocates to no object, so that a number of the script that is not bound
// names none
#define NO_OBJECT 0x40000000U

void answer(struct session *session, const char *format, ...)
{
    size_t length = strlen(session->answer);
    va_list arguments;

    va_start(arguments, format);
    vsnprintf(session->answer + length, sizeof(session->answer) - length, format, arguments);
    va_end(arguments);
}

void answer_errno(struct session *session)
{
    answer(session, "errno %d", errno);
}

struct session *create_session(const struct device *device, bool is_privileged)
{
    struct session *session = calloc(1, sizeof(*session));

    if (!session)
        return NULL;
    session->device = device;
    session->is_privileged = is_privileged;
    session->objects = device->objects;
    session->tokens.first = 1;
    session->leases.first = 1;
    return session;
}

uint32_t kernel_object(const struct session *session, uint32_t script)
{
    uint32_t kernel;

    if (script == 0 || script == UINT32_MAX)
        return script;
    return find_kernel_number(&session->objects, script, &kernel) ? kernel
                                                                  : NO_OBJECT | script % NO_OBJECT;
}

uint32_t script_object(const struct session *session, uint32_t kernel)
{
    uint32_t script;

    return find_script_number(&session->objects, kernel, &script) ? script : kernel;
}

uint32_t keep_descriptor(struct session *session, struct numbers *tokens, uint32_t script, int file,
                         unsigned owner)
{
    uint32_t place = session->descriptor_count;

    if (place == MOST_NUMBERS)
        return 0;
    session->descriptors[place] = (struct descriptor){file, owner, false};
    session->descriptor_count++;
    return bind_number(tokens, script, place);
}

struct descriptor *find_descriptor(struct session *session, const struct numbers *tokens,
                                   uint32_t script)
{
    uint32_t place;

    if (!find_kernel_number(tokens, script, &place))
        return NULL;
    return session->descriptors[place].file < 0 ? NULL : &session->descriptors[place];
}

// Takes CAP_SYS_ADMIN out of the effective capabilities, or puts it back.
static void be_root(const struct session *session, bool is_root)
{
    struct __user_cap_header_struct header = {_LINUX_CAPABILITY_VERSION_3, 0};
    struct __user_cap_data_struct data[2];
    uint32_t admin = CAP_TO_MASK(CAP_SYS_ADMIN);

    if (!session->is_privileged || syscall(SYS_capget, &header, data) != 0)
        return;
    data[0].effective = is_root ? data[0].effective | admin : data[0].effective & ~admin;
    if (syscall(SYS_capset, &header, data) != 0)
        perror("capset");
}

static int open_lease(struct session *session, const struct line *line)
{
    struct descriptor *lease =
        find_descriptor(session, &session->leases, (uint32_t)line->fields[0]);

    if (!lease || lease->is_taken) {
        errno = EBADF;
        return -1;
    }
    lease->is_taken = true;
    return fcntl(lease->file, F_DUPFD_CLOEXEC, 0);
}

static int open_file(struct session *session, const struct line *line)
{
    bool is_render = strcmp(line->word, "render") == 0;
    int file;

    if (strstr(line->word, "lease")) {
        file = open_lease(session, line);
        if (file >= 0) {
            struct descriptor *lease =
                find_descriptor(session, &session->leases, (uint32_t)line->fields[0]);

            close(lease->file);
            lease->file = -1;
        }
        return file;
    }
    return open(is_render ? session->device->render : session->device->card, O_RDWR | O_CLOEXEC);
}

static void turn_universal_planes_on(int file)
{
    struct drm_set_client_cap planes = {DRM_CLIENT_CAP_UNIVERSAL_PLANES, 1};

    ioctl(file, DRM_IOCTL_SET_CLIENT_CAP, &planes);
}

// A client has no number in the kernel: it is the script's or, if none is expected, the number of
// clients so far.
static void open_client(struct session *session, const struct line *line)
{
    bool is_root = strncmp(line->word, "root", 4) == 0;
    uint64_t number = expected_number(line, "client", 0);
    struct client *client = &session->clients[session->client_count];

    if (is_root && !session->is_privileged) {
        answer(session, "left out: not root");
        return;
    }
    if (session->client_count == MOST_CLIENTS) {
        answer(session, "left out: too many clients");
        return;
    }
    be_root(session, is_root);
    *client = (struct client){open_file(session, line), is_root, true};
    if (client->file < 0) {
        answer_errno(session);
        return;
    }
    if (line->universal && strcmp(line->word, "render") != 0)
        turn_universal_planes_on(client->file);
    session->client_count++;
    session->labels[line->label - 'a'] = session->client_count;
    answer(session, "client %u", number ? (unsigned)number : session->client_count);
}

// The descriptors that the client got, and no opening took, are closed with it.
static void close_descriptors(struct session *session, unsigned owner)
{
    unsigned i;

    for (i = 0; i < session->descriptor_count; i++) {
        struct descriptor *descriptor = &session->descriptors[i];

        if (descriptor->owner == owner && descriptor->file >= 0) {
            close(descriptor->file);
            descriptor->file = -1;
        }
    }
}

static void close_client(struct session *session, unsigned number)
{
    struct client *client = number ? &session->clients[number - 1] : NULL;

    if (!client || !client->is_open) {
        errno = EBADF;
        answer_errno(session);
        return;
    }
    be_root(session, client->is_root);
    close_descriptors(session, number);
    close(client->file);
    client->is_open = false;
    client->file = -1;
    answer(session, "closed");
}

static void call(struct session *session, const struct line *line, unsigned number)
{
    const struct client *client = number ? &session->clients[number - 1] : NULL;
    struct caller caller = {number, client && client->is_open ? client->file : -1};

    be_root(session, client && client->is_root);
    make_call(session, line, &caller);
}

void carry_out(struct session *session, const struct line *line)
{
    unsigned number = session->labels[line->label - 'a'];

    session->answer[0] = '\0';
    if (line->kind == LINE_OPENING)
        open_client(session, line);
    else if (line->kind == LINE_CLOSING)
        close_client(session, number);
    else
        call(session, line, number);
}
