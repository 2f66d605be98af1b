/* Property blobs: those that programs create, and those that the display does. */
#ifndef ZIRKOSHE_LIBDRM_BLOBS_H
#define ZIRKOSHE_LIBDRM_BLOBS_H

#include "connections.h"

#include <drm_mode.h>

/* Creates a blob with a copy of the bytes for a connection; 0, or a negative errno. */
int blob_create(const struct connection *connection, const void *bytes, uint32_t size,
                uint32_t *blob_id);

/* Takes a connection's blob from it: -ENOENT if there is no such blob, -EPERM if it is another's.
 * What uses the blob keeps it. */
int blob_destroy(const struct connection *connection, uint32_t blob_id);

/* Takes all blobs of a connection from it. */
void blobs_end(const struct connection *connection);

/* Returns a blob for the display's own use, of which this is one, or 0 if there is no memory. */
uint32_t blob_of_display(const void *bytes, uint32_t size);

/* Returns the blob with the formats of all planes, or 0 if there is no memory. */
uint32_t blob_of_formats(void);

/* Begins or ends a use of a blob, or of none. */
void blob_use(uint32_t blob_id);
void blob_drop(uint32_t blob_id);

/* Returns the bytes of a blob, and their number in `size`, or NULL and 0. */
const void *blob_bytes(uint32_t blob_id, uint32_t *size);

#endif
