// SPDX-License-Identifier: GPL-2.0-only
// The driver of a DRM device without hardware. All access rules are the unchanged core's.
#include <linux/module.h>
#include <linux/platform_device.h>
#include <linux/version.h>

#include <drm/drm_atomic_helper.h>
#include <drm/drm_drv.h>
#include <drm/drm_gem.h>
#include <drm/drm_ioctl.h>
#include <drm/drm_prime.h>

#include "card.h"
#include "driver_calls.h"

static const struct drm_ioctl_desc driver_calls[] = {
    DRM_IOCTL_DEF_DRV(ZIRKOSHE_BUF_CREATE, zirkoshe_buf_create, DRM_RENDER_ALLOW),
    DRM_IOCTL_DEF_DRV(ZIRKOSHE_STAMP_WRITE, zirkoshe_stamp_write, DRM_RENDER_ALLOW),
    DRM_IOCTL_DEF_DRV(ZIRKOSHE_STAMP_READ, zirkoshe_stamp_read, DRM_RENDER_ALLOW),
    DRM_IOCTL_DEF_DRV(ZIRKOSHE_LIST_HANDLES, zirkoshe_list_handles, DRM_RENDER_ALLOW),
};

DEFINE_DRM_GEM_FOPS(file_operations_of_a_card);

static const struct drm_driver driver = {
    .driver_features = DRIVER_GEM | DRIVER_MODESET | DRIVER_ATOMIC | DRIVER_RENDER | DRIVER_SYNCOBJ
                       | DRIVER_SYNCOBJ_TIMELINE,
    .fops = &file_operations_of_a_card,
    .ioctls = driver_calls,
    .num_ioctls = ARRAY_SIZE(driver_calls),
    .dumb_create = zirkoshe_create_dumb,
#if LINUX_VERSION_CODE < KERNEL_VERSION(6, 6, 0)
    .prime_handle_to_fd = drm_gem_prime_handle_to_fd,
    .prime_fd_to_handle = drm_gem_prime_fd_to_handle,
#endif
#if LINUX_VERSION_CODE < KERNEL_VERSION(6, 14, 0)
    .date = "0",
#endif
    .name = ZIRKOSHE_DRIVER,
    .desc = "A device without hardware that has the test topology",
    .major = 1,
};

// the test topology
static char *topology = "crtcs:2,primary:1,plane:2,encoder:1+2,encoder:2,connector:1,connector:2";
module_param(topology, charp, 0444);
MODULE_PARM_DESC(topology, "The lines of a topology file: , between lines, : and + between words");

static bool blanks;
module_param(blanks, bool, 0444);
MODULE_PARM_DESC(blanks, "CRTCs have a vertical blanking, so that a change waits for it");

static struct topology objects;
static struct platform_device *platform;
static struct drm_device *card;

static int create_card(void)
{
    int result;

    card = drm_dev_alloc(&driver, &platform->dev);
    if (IS_ERR(card))
        return PTR_ERR(card);
    result = zirkoshe_create_mode_objects(card, &objects, blanks);
    if (!result)
        result = drm_dev_register(card, 0);
    if (result)
        drm_dev_put(card);
    return result;
}

static int __init load(void)
{
    int result = zirkoshe_read_topology(&objects, topology);

    if (result)
        return result;
    platform = platform_device_register_simple(ZIRKOSHE_DRIVER, -1, NULL, 0);
    if (IS_ERR(platform))
        return PTR_ERR(platform);
    result = create_card();
    if (result)
        platform_device_unregister(platform);
    return result;
}

static void __exit unload(void)
{
    drm_dev_unplug(card);
    drm_atomic_helper_shutdown(card);
    drm_dev_put(card);
    platform_device_unregister(platform);
}

module_init(load);
module_exit(unload);
MODULE_DESCRIPTION("A DRM device without hardware that has the test topology of Zirkoshe");
MODULE_LICENSE("GPL");
