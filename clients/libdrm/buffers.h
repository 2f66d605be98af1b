/* The memory of objects, and the descriptors that represent PRIME tokens.
 *
 * The server keeps no pixels. An object that is mapped or exported gets shared memory of its size
 * (a memfd), which all mappings of it show. A PRIME descriptor is that memory,
 * opened anew, with a lock on one byte far after its end, which stays while any process has the
 * descriptor. The kernel reports when a file of exported memory is closed everywhere, and unmapped
 * (inotify): then the token is closed.
 */
#ifndef ZIRKOSHE_LIBDRM_BUFFERS_H
#define ZIRKOSHE_LIBDRM_BUFFERS_H

#include "libc.h"

#include <stdbool.h>
#include <stdint.h>

#include <sys/types.h>

struct connection;
struct buffer;
struct object;

/* The handles of a connection. */
struct buffers {
    struct buffer *first;
};

/* Notes a handle that the server has just made, and the size of its object: a new one, the one of
 * this name, or the one that a framebuffer has, if it is known. */
void buffers_note(struct connection *connection, uint32_t handle, uint64_t size);
void buffers_note_named(struct connection *connection, uint32_t handle, uint64_t size,
                        uint32_t name);
void buffers_note_object(struct connection *connection, uint32_t handle, uint64_t size,
                         struct object *object);

/* Notes the name of a handle's object. */
void buffers_name(struct connection *connection, uint32_t handle, uint32_t name);

/* Returns the object of a handle for another use of it, or NULL; ends that use. */
struct object *buffers_use(struct connection *connection, uint32_t handle);
void object_drop(struct object *object);

/* Opens the memory of an object; -1 if it has none yet. */
int object_memory(const struct object *object);

/* Forgets a handle that was closed. Its mappings and PRIME descriptors stay. */
void buffers_forget(struct connection *connection, uint32_t handle);

/* Forgets all handles of a connection that is closed, and hands its open tokens to a client of the
 * display's own, since the server closes them with their client. */
void buffers_clear(struct connection *connection);

/* Returns the memory of a handle, and its size, or a negative errno: EINVAL if the handle is not
 * known. */
int buffers_memory(struct connection *connection, uint32_t handle, uint64_t *size);

/* A descriptor for a token that was just exported for this handle, with flags of open; a negative
 * errno. */
int buffers_export(struct connection *connection, uint32_t handle, uint32_t token, int flags);

/* Redeems the token of a descriptor. A negative errno: EBADF, EINVAL for another file, the
 * server's.
 */
int buffers_import(struct connection *connection, int fd, uint32_t *handle);

/* A descriptor that is readable when PRIME descriptors may have been closed, or -1. Notes that they
 * may be. Returns whether they may be, and whether to look now. Closes the tokens whose descriptors
 * are all closed. */
int buffers_watch(void);
void buffers_are_closed(void);
bool buffers_may_be_closed(void);
bool buffers_look(void);
void buffers_close_tokens(void);

/* The least offset of a handle's memory in its connection; which handle has an offset, 0 for none;
 * and how far in it is. */
uint64_t offset_of(uint32_t handle);
uint32_t handle_at(uint64_t offset);
uint64_t place_at(uint64_t offset);

#endif
