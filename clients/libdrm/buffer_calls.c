/* Answers to requests of handles, names, PRIME and dumb buffers. */
#include "answers.h"

#include "ioctls.h"

int answer_gem_close(struct connection *connection, void *argument)
{
    const struct drm_gem_close *closing = argument;
    int failed = zirkoshe_drmCloseBufferHandle(&connection->client, closing->handle);

    if (!failed)
        buffers_forget(connection, closing->handle);
    return failed;
}

int answer_gem_flink(struct connection *connection, void *argument)
{
    struct drm_gem_flink *flink = argument;

    int failed = zirkoshe_gem_flink(&connection->client, flink->handle, &flink->name);

    if (!failed)
        buffers_name(connection, flink->handle, flink->name);
    return failed;
}

int answer_gem_open(struct connection *connection, void *argument)
{
    struct drm_gem_open *opening = argument;
    struct zirkoshe_buffer buffer;
    int failed = zirkoshe_gem_open(&connection->client, opening->name, &buffer);

    if (failed)
        return failed;
    buffers_note_named(connection, buffer.handle, buffer.size, opening->name);
    opening->handle = buffer.handle;
    opening->size = buffer.size;
    return 0;
}

/* The server creates a token, and the display the descriptor. If that fails, it closes the token
 * again. */
int answer_prime_export(struct connection *connection, void *argument)
{
    struct drm_prime_handle *prime = argument;
    uint32_t token;
    int failed, fd;

    if (prime->flags & ~(uint32_t)(DRM_CLOEXEC | DRM_RDWR))
        return -EINVAL;
    failed = zirkoshe_drmPrimeHandleToFD(&connection->client, prime->handle, &token);
    if (failed)
        return failed;
    fd = buffers_export(connection, prime->handle, token, (int)prime->flags);
    if (fd < 0) {
        zirkoshe_token_close(&connection->client, token);
        return fd;
    }
    return outcome_has(fd);
}

int answer_prime_import(struct connection *connection, void *argument)
{
    struct drm_prime_handle *prime = argument;

    return buffers_import(connection, caller_descriptor(0), &prime->handle);
}

int answer_create_dumb(struct connection *connection, void *argument)
{
    struct drm_mode_create_dumb *dumb = argument;
    struct zirkoshe_dumb made;
    int failed;

    failed = zirkoshe_drmModeCreateDumbBuffer(&connection->client, dumb->width, dumb->height,
                                              dumb->bpp, &made);
    if (failed)
        return failed;
    buffers_note(connection, made.handle, made.size);
    dumb->handle = made.handle;
    dumb->pitch = made.pitch;
    dumb->size = made.size;
    return 0;
}

/* Whether the caller holds a handle shows in the reading of its stamp, which the core has no word
 * for. */
int answer_map_dumb(struct connection *connection, void *argument)
{
    struct drm_mode_map_dumb *map = argument;
    uint64_t stamp, size;
    int failed = zirkoshe_stamp_read(&connection->client, map->handle, &stamp);
    int memory;

    if (failed)
        return failed;
    memory = buffers_memory(connection, map->handle, &size);
    if (memory < 0)
        return memory;
    map->offset = offset_of(map->handle);
    return 0;
}

int answer_destroy_dumb(struct connection *connection, void *argument)
{
    const struct drm_mode_destroy_dumb *destroyed = argument;
    int failed = zirkoshe_drmModeDestroyDumbBuffer(&connection->client, destroyed->handle);

    if (!failed)
        buffers_forget(connection, destroyed->handle);
    return failed;
}
