/* The memory of objects, and the descriptors that represent PRIME tokens. */
#include "connections.h"

#include <limits.h>
#include <stdio.h>
#include <stdlib.h>
#include <sys/inotify.h>
#include <sys/mman.h>
#include <sys/stat.h>

/* how long a buffer may be, which is the server's own limit, as a power of two */
#define LENGTH_BITS 36
/* the byte that represents export 0 */
#define EXPORTS ((off_t)1 << 62)

/* What handles of any connections, framebuffers and exports have in common */
struct object {
    struct object *next;
    unsigned uses;
    uint64_t size;
    uint32_t name; /* 0 if it has none */
    int fd;        /* -1 if its memory is not needed yet */
    dev_t device;
    ino_t file;
};

struct buffer {
    struct buffer *next;
    uint32_t handle;
    struct object *object;
};

/* A token whose descriptor may be open */
struct export
{
    struct export *next;
    uint32_t number, token;
    struct connection *owner;
    struct object *object;
};

static struct object *objects;
static struct export *exports;
static uint32_t last_export;
static struct connection *keeper;
static int watch = -1; /* of inotify */
static int looks;      /* how often closed exports are still looked for */

/* The kernel reports the closing of a file just before it drops the lock, so that more looks
 * follow. */
#define LOOKS 4

static struct object *make_object(uint64_t size)
{
    struct object *made = calloc(1, sizeof *made);

    if (made == NULL)
        return NULL;
    made->size = size;
    made->fd = -1;
    made->uses = 1;
    made->next = objects;
    objects = made;
    return made;
}

void object_drop(struct object *object)
{
    struct object **place = &objects;

    if (object == NULL || --object->uses > 0)
        return;
    while (*place != object)
        place = &(*place)->next;
    *place = object->next;
    if (object->fd >= 0)
        close(object->fd);
    free(object);
}

int object_memory(const struct object *object)
{
    return object->fd < 0 ? -1 : fcntl(object->fd, F_DUPFD_CLOEXEC, 0);
}

static struct buffer *find(const struct buffers *buffers, uint32_t handle)
{
    struct buffer *found = buffers->first;

    while (found != NULL && found->handle != handle)
        found = found->next;
    return found;
}

void buffers_forget(struct connection *connection, uint32_t handle)
{
    struct buffer **place = &connection->buffers.first, *found;

    while (*place != NULL && (*place)->handle != handle)
        place = &(*place)->next;
    found = *place;
    if (found == NULL)
        return;
    *place = found->next;
    object_drop(found->object);
    free(found);
}

/* Notes a handle of an object, of which this is a new use; without memory it stays unknown. */
static void note(struct buffers *buffers, uint32_t handle, struct object *object)
{
    struct buffer *made = object == NULL ? NULL : malloc(sizeof *made);

    if (made == NULL) {
        object_drop(object);
        return;
    }
    made->handle = handle;
    made->object = object;
    made->next = buffers->first;
    buffers->first = made;
}

void buffers_note_object(struct connection *connection, uint32_t handle, uint64_t size,
                         struct object *object)
{
    if (object != NULL)
        object->uses++;
    else
        object = make_object(size);
    buffers_forget(connection, handle);
    note(&connection->buffers, handle, object);
}

void buffers_note(struct connection *connection, uint32_t handle, uint64_t size)
{
    buffers_note_object(connection, handle, size, NULL);
}

void buffers_note_named(struct connection *connection, uint32_t handle, uint64_t size,
                        uint32_t name)
{
    struct object *found = objects;

    while (found != NULL && found->name != name)
        found = found->next;
    buffers_note_object(connection, handle, size, found);
}

void buffers_name(struct connection *connection, uint32_t handle, uint32_t name)
{
    struct buffer *buffer = find(&connection->buffers, handle);
    struct object *each;

    for (each = objects; each != NULL; each = each->next)
        each->name = each->name == name ? 0 : each->name;
    if (buffer != NULL)
        buffer->object->name = name;
}

struct object *buffers_use(struct connection *connection, uint32_t handle)
{
    struct buffer *buffer = find(&connection->buffers, handle);

    if (buffer == NULL)
        return NULL;
    buffer->object->uses++;
    return buffer->object;
}

static struct flock byte_of(short kind, uint32_t number)
{
    struct flock byte;

    memset(&byte, 0, sizeof byte);
    byte.l_type = kind;
    byte.l_whence = SEEK_SET;
    byte.l_start = EXPORTS + number;
    byte.l_len = 1;
    return byte;
}

static bool is_open(const struct export *export)
{
    struct flock byte = byte_of(F_WRLCK, export->number);

    return fcntl(export->object->fd, F_OFD_GETLK, &byte) == 0 && byte.l_type != F_UNLCK;
}

/* Exports the object of a token again, for the keeper: a client of the render node, which can't
 * become master. */
static bool is_kept(struct export *export)
{
    struct zirkoshe_buffer buffer;
    uint32_t token;
    bool is_done;

    if (keeper == NULL && connection_open(NODE_RENDER, false, 0, getpid(), &keeper) != 0)
        return false;
    if (connection_hold(keeper) != 0)
        return false;
    is_done = zirkoshe_drmPrimeFDToHandle(&keeper->client, export->token, &buffer) == 0;
    if (is_done) {
        is_done = zirkoshe_drmPrimeHandleToFD(&keeper->client, buffer.handle, &token) == 0;
        zirkoshe_drmCloseBufferHandle(&keeper->client, buffer.handle);
    }
    connection_let_go(keeper, 0);
    if (is_done) {
        export->owner = keeper;
        export->token = token;
    }
    return is_done;
}

/* Takes an export of an owner from the list, or one of any owner (NULL) that no process has open.
 * Returns NULL if there is none. */
static struct export *take_export(const struct connection *owner)
{
    struct export **place = &exports, *each;

    while ((each = *place) != NULL && (owner != NULL ? each->owner != owner : is_open(each)))
        place = &each->next;
    if (each != NULL)
        *place = each->next;
    return each;
}

static void end_export(struct export *export)
{
    object_drop(export->object);
    free(export);
}

void buffers_clear(struct connection *connection)
{
    struct export *each;

    while (connection->buffers.first != NULL)
        buffers_forget(connection, connection->buffers.first->handle);
    while ((each = take_export(connection)) != NULL) {
        if (is_open(each) && is_kept(each)) {
            each->next = exports;
            exports = each;
        } else {
            end_export(each);
        }
    }
}

/* Makes the memory of an object, if it has none yet; its descriptor, or a negative errno. */
static int memory_of(struct object *object)
{
    struct stat status;
    int fd;

    if (object->fd >= 0)
        return object->fd;
    fd = memfd_create(MEMORY_NAME, MFD_CLOEXEC | MFD_ALLOW_SEALING);
    if (fd < 0)
        return -ENOMEM;
    /* no holder can make it shorter, which would end another one */
    if (ftruncate(fd, (off_t)object->size) != 0 || fstat(fd, &status) != 0
        || fcntl(fd, F_ADD_SEALS, F_SEAL_SHRINK | F_SEAL_GROW | F_SEAL_SEAL) != 0) {
        close(fd);
        return -ENOMEM;
    }
    object->fd = fd;
    object->device = status.st_dev;
    object->file = status.st_ino;
    return fd;
}

int buffers_memory(struct connection *connection, uint32_t handle, uint64_t *size)
{
    const struct buffer *buffer = find(&connection->buffers, handle);

    if (buffer == NULL)
        return -EINVAL;
    *size = buffer->object->size;
    return memory_of(buffer->object);
}

/* Opens the file of a descriptor anew, so that the two have their own locks, and watches its
 * closing. */
static int open_anew(int fd, int flags)
{
    char path[32];
    int opened;

    snprintf(path, sizeof path, "/proc/self/fd/%d", fd);
    if (buffers_watch() >= 0)
        inotify_add_watch(watch, path, IN_CLOSE);
    opened = open(path, flags);
    return opened < 0 ? -errno : opened;
}

static int export_object(struct connection *connection, struct object *object, uint32_t token,
                         int flags)
{
    int memory = memory_of(object), fd = memory < 0 ? memory : open_anew(memory, flags);
    struct export *made = fd < 0 ? NULL : calloc(1, sizeof *made);
    struct flock byte = byte_of(F_RDLCK, ++last_export);

    if (made == NULL || fcntl(fd, F_OFD_SETLK, &byte) != 0) {
        if (fd >= 0)
            close(fd);
        free(made);
        return fd < 0 ? fd : -ENOMEM;
    }
    *made = (struct export){exports, last_export, token, connection, object};
    object->uses++;
    exports = made;
    return fd;
}

int buffers_export(struct connection *connection, uint32_t handle, uint32_t token, int flags)
{
    const struct buffer *buffer = find(&connection->buffers, handle);

    return buffer == NULL ? -EINVAL : export_object(connection, buffer->object, token, flags);
}

/* The object whose memory a descriptor is, of which this is a new use, or NULL. */
static struct object *object_of(int fd)
{
    struct object *found;
    struct stat status;

    if (fstat(fd, &status) != 0)
        return NULL;
    for (found = objects; found != NULL; found = found->next) {
        if (found->fd >= 0 && found->device == status.st_dev && found->file == status.st_ino)
            break;
    }
    if (found != NULL)
        found->uses++;
    return found;
}

/* The export of an object with the least number from one on, or NULL. */
static const struct export *next_export(const struct object *object, uint32_t number)
{
    const struct export *each, *found = NULL;

    for (each = exports; each != NULL; each = each->next) {
        if (each->object == object && each->number >= number
            && (found == NULL || each->number < found->number))
            found = each;
    }
    return found;
}

/* Redeems the first open token of an object. All its tokens represent the same. */
static int redeem(struct zirkoshe_client *client, const struct object *object,
                  struct zirkoshe_buffer *buffer)
{
    const struct export *found = next_export(object, 0);
    int failed = -EINVAL;

    while (failed && found != NULL) {
        uint32_t next = found->number + 1;

        failed = zirkoshe_drmPrimeFDToHandle(client, found->token, buffer);
        found = next_export(object, next);
    }
    return failed;
}

int buffers_import(struct connection *connection, int fd, uint32_t *handle)
{
    struct zirkoshe_buffer imported = {0, 0};
    struct object *object;
    int failed;

    if (fcntl(fd, F_GETFD) < 0)
        return -EBADF;
    object = object_of(fd);
    if (object == NULL)
        return -EINVAL;
    failed = redeem(&connection->client, object, &imported);
    if (!failed) {
        if (find(&connection->buffers, imported.handle) == NULL)
            buffers_note_object(connection, imported.handle, imported.size, object);
        *handle = imported.handle;
    }
    object_drop(object);
    return failed;
}

int buffers_watch(void)
{
    if (watch < 0)
        watch = inotify_init1(IN_CLOEXEC | IN_NONBLOCK);
    return watch;
}

void buffers_are_closed(void)
{
    _Alignas(struct inotify_event) char reports[4096];

    while (watch >= 0 && read(watch, reports, sizeof reports) > 0)
        looks = LOOKS;
}

bool buffers_may_be_closed(void)
{
    return looks > 0;
}

bool buffers_look(void)
{
    return looks > 0 && looks-- > 0;
}

void buffers_close_tokens(void)
{
    struct export *closed;

    while ((closed = take_export(NULL)) != NULL) {
        struct connection *owner = closed->owner;

        connection_use(owner);
        if (connection_hold(owner) == 0)
            connection_let_go(owner, zirkoshe_token_close(&owner->client, closed->token));
        connection_release(owner);
        end_export(closed);
    }
}

uint64_t offset_of(uint32_t handle)
{
    return (uint64_t)handle << LENGTH_BITS;
}

uint32_t handle_at(uint64_t offset)
{
    return offset >> LENGTH_BITS > UINT32_MAX ? 0 : (uint32_t)(offset >> LENGTH_BITS);
}

uint64_t place_at(uint64_t offset)
{
    return offset & (((uint64_t)1 << LENGTH_BITS) - 1);
}
