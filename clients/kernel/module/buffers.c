// SPDX-License-Identifier: GPL-2.0-only
// Objects without memory: a stamp represents the contents. Handles, names and descriptors are the
// core's.
#include <linux/slab.h>

#include <drm/drm_gem.h>

#include "card.h"
#include "driver_calls.h"

#define MOST_BYTES (64ULL << 30)

struct buffer {
    struct drm_gem_object base;
    u64 stamp;
};

static void free_buffer(struct drm_gem_object *object)
{
    drm_gem_object_release(object);
    kfree(container_of(object, struct buffer, base));
}

static const struct drm_gem_object_funcs buffer_functions = {
    .free = free_buffer,
};

static int create_buffer(struct drm_device *device, struct drm_file *file, u64 size, u32 *handle)
{
    struct buffer *buffer = kzalloc(sizeof(*buffer), GFP_KERNEL);
    int result;

    if (!buffer)
        return -ENOMEM;
    buffer->base.funcs = &buffer_functions;
    drm_gem_private_object_init(device, &buffer->base, size);
    result = drm_gem_handle_create(file, &buffer->base, handle);
    drm_gem_object_put(&buffer->base);
    return result;
}

int zirkoshe_create_dumb(struct drm_file *file, struct drm_device *device,
                         struct drm_mode_create_dumb *dumb)
{
    u64 pitch = ALIGN((u64)dumb->width * DIV_ROUND_UP(dumb->bpp, 8), 64);

    if (pitch > U32_MAX)
        return -EINVAL;
    dumb->pitch = pitch;
    dumb->size = ALIGN(pitch * dumb->height, 4096);
    return create_buffer(device, file, dumb->size, &dumb->handle);
}

int zirkoshe_buf_create(struct drm_device *device, void *data, struct drm_file *file)
{
    struct zirkoshe_buf_create *create = data;

    if (create->size == 0 || create->size > MOST_BYTES)
        return -EINVAL;
    create->size = ALIGN(create->size, 4096);
    return create_buffer(device, file, create->size, &create->handle);
}

int zirkoshe_stamp_write(struct drm_device *device, void *data, struct drm_file *file)
{
    struct zirkoshe_stamp *write = data;
    struct drm_gem_object *object = drm_gem_object_lookup(file, write->handle);

    if (!object)
        return -ENOENT;
    container_of(object, struct buffer, base)->stamp = write->stamp;
    drm_gem_object_put(object);
    return 0;
}

int zirkoshe_stamp_read(struct drm_device *device, void *data, struct drm_file *file)
{
    struct zirkoshe_stamp *read = data;
    struct drm_gem_object *object = drm_gem_object_lookup(file, read->handle);

    if (!object)
        return -ENOENT;
    read->stamp = container_of(object, struct buffer, base)->stamp;
    drm_gem_object_put(object);
    return 0;
}

int zirkoshe_list_handles(struct drm_device *device, void *data, struct drm_file *file)
{
    struct zirkoshe_list_handles *list = data;
    int handle = list->from > INT_MAX ? INT_MAX : list->from;

    list->count = 0;
    spin_lock(&file->table_lock);
    while (list->count < ZIRKOSHE_LISTED && idr_get_next(&file->object_idr, &handle))
        list->handles[list->count++] = handle++;
    spin_unlock(&file->table_lock);
    return 0;
}
