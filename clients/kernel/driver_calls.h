/* SPDX-License-Identifier: GPL-2.0-only */
/*
 * The driver calls of the module, numbered and shaped for an ioctl: each driver has the numbers
 * from 0x40 (DRM_COMMAND_BASE) to itself. The module and drm_script include it.
 */
#ifndef ZIRKOSHE_DRIVER_CALLS_H
#define ZIRKOSHE_DRIVER_CALLS_H

#ifdef __KERNEL__
#include <drm/drm.h>
#else
#include <drm.h>
#endif

#define ZIRKOSHE_DRIVER "zirkoshe_card"
#define ZIRKOSHE_LISTED 64

/* The create call of this driver: it takes 1 to 64 GiB, rounds up to 4,096, and is for render
 * clients too. */
struct zirkoshe_buf_create {
    __u64 size;
    __u32 handle;
    __u32 pad;
};

/* What represents the contents of an object. */
struct zirkoshe_stamp {
    __u64 stamp;
    __u32 handle;
    __u32 pad;
};

/* The handles of the caller from `from` on, as the core's table has them. */
struct zirkoshe_list_handles {
    __u32 from;
    __u32 count;
    __u32 handles[ZIRKOSHE_LISTED];
};

#define ZIRKOSHE_BUF_CREATE 0x00
#define ZIRKOSHE_STAMP_WRITE 0x01
#define ZIRKOSHE_STAMP_READ 0x02
#define ZIRKOSHE_LIST_HANDLES 0x04

#define DRM_IOCTL_ZIRKOSHE_BUF_CREATE                                                              \
    DRM_IOWR(DRM_COMMAND_BASE + ZIRKOSHE_BUF_CREATE, struct zirkoshe_buf_create)
#define DRM_IOCTL_ZIRKOSHE_STAMP_WRITE                                                             \
    DRM_IOWR(DRM_COMMAND_BASE + ZIRKOSHE_STAMP_WRITE, struct zirkoshe_stamp)
#define DRM_IOCTL_ZIRKOSHE_STAMP_READ                                                              \
    DRM_IOWR(DRM_COMMAND_BASE + ZIRKOSHE_STAMP_READ, struct zirkoshe_stamp)
#define DRM_IOCTL_ZIRKOSHE_LIST_HANDLES                                                            \
    DRM_IOWR(DRM_COMMAND_BASE + ZIRKOSHE_LIST_HANDLES, struct zirkoshe_list_handles)

#endif
