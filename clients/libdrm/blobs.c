/* Property blobs. */
#include "blobs.h"

#include "answers.h"

#include <stdlib.h>

/* Their ids are above every id of the server, and those of properties. */
#define FIRST_ID 0x20000u

struct blob {
    struct blob *next;
    uint32_t id, size;
    unsigned uses;  /* its owner's and those of states */
    uint64_t owner; /* the cookie of the connection that created it, or 0 */
    uint8_t bytes[];
};

static struct blob *blobs;
static uint32_t last_id = FIRST_ID;
static uint32_t formats_id;

static struct blob **find(uint32_t id)
{
    struct blob **place = &blobs;

    while (*place != NULL && (*place)->id != id)
        place = &(*place)->next;
    return place;
}

/* Creates a blob with one use, and returns its id; 0 if there is no memory. */
static uint32_t create(uint64_t owner, const void *bytes, uint32_t size)
{
    struct blob *blob = malloc(sizeof *blob + size);

    if (blob == NULL)
        return 0;
    blob->size = size;
    blob->uses = 1;
    blob->owner = owner;
    memcpy(blob->bytes, bytes, size);
    do
        last_id = last_id < UINT32_MAX ? last_id + 1 : FIRST_ID + 1;
    while (*find(last_id) != NULL);
    blob->id = last_id;
    blob->next = blobs;
    blobs = blob;
    return blob->id;
}

/* Ends a use. The last one frees the blob. */
static void drop(struct blob **place)
{
    struct blob *blob = *place;

    if (blob == NULL || --blob->uses > 0)
        return;
    *place = blob->next;
    free(blob);
}

int blob_create(const struct connection *connection, const void *bytes, uint32_t size,
                uint32_t *blob_id)
{
    *blob_id = create(connection->cookie, bytes, size);
    return *blob_id != 0 ? 0 : -ENOMEM;
}

int blob_destroy(const struct connection *connection, uint32_t blob_id)
{
    struct blob **place = find(blob_id);

    if (*place == NULL)
        return -ENOENT;
    if ((*place)->owner != connection->cookie)
        return -EPERM;
    (*place)->owner = 0;
    drop(place);
    return 0;
}

void blobs_end(const struct connection *connection)
{
    struct blob **place = &blobs, *blob;

    while ((blob = *place) != NULL) {
        bool is_owned = blob->owner == connection->cookie, stays = !is_owned || blob->uses > 1;

        if (is_owned) {
            blob->owner = 0;
            drop(place);
        }
        if (stays)
            place = &blob->next;
    }
}

uint32_t blob_of_display(const void *bytes, uint32_t size)
{
    return create(0, bytes, size);
}

/* All formats have one modifier, the linear one. */
static uint32_t create_formats(void)
{
    struct {
        struct drm_format_modifier_blob head;
        struct drm_format_modifier modifier;
        uint32_t formats[64];
    } blob;
    const uint32_t *formats;
    uint32_t count;

    formats = all_formats(&count);
    memset(&blob, 0, sizeof blob);
    blob.head.version = FORMAT_BLOB_CURRENT;
    blob.head.count_formats = count;
    blob.head.formats_offset = offsetof(__typeof__(blob), formats);
    blob.head.count_modifiers = 1;
    blob.head.modifiers_offset = offsetof(__typeof__(blob), modifier);
    blob.modifier.formats = ((uint64_t)1 << count) - 1;
    blob.modifier.modifier = DRM_FORMAT_MOD_LINEAR;
    memcpy(blob.formats, formats, count * sizeof *formats);
    return create(0, &blob,
                  (uint32_t)(offsetof(__typeof__(blob), formats) + count * sizeof *formats));
}

uint32_t blob_of_formats(void)
{
    if (formats_id == 0)
        formats_id = create_formats();
    return formats_id;
}

void blob_use(uint32_t blob_id)
{
    struct blob *blob = *find(blob_id);

    if (blob != NULL)
        blob->uses++;
}

void blob_drop(uint32_t blob_id)
{
    drop(find(blob_id));
}

const void *blob_bytes(uint32_t blob_id, uint32_t *size)
{
    const struct blob *blob = *find(blob_id);

    *size = blob != NULL ? blob->size : 0;
    return blob != NULL ? blob->bytes : NULL;
}
