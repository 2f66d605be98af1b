/* The modes of each connector. The server has none, so these represent a monitor.
 *
 * The timings are public: CTA-861 for 1920 by 1080 and 1280 by 720, VESA's DMT for the others. */
#include "answers.h"

#define BOTH_UP (DRM_MODE_FLAG_PHSYNC | DRM_MODE_FLAG_PVSYNC)
#define BOTH_DOWN (DRM_MODE_FLAG_NHSYNC | DRM_MODE_FLAG_NVSYNC)

#define MODE(name, type, clock, hdisplay, hsync_start, hsync_end, htotal, vdisplay, vsync_start,   \
             vsync_end, vtotal, flags)                                                             \
    {                                                                                              \
        clock, hdisplay, hsync_start, hsync_end, htotal, 0, vdisplay, vsync_start, vsync_end,      \
            vtotal, 0, 60, flags, DRM_MODE_TYPE_DRIVER | (type), name                              \
    }

static const struct drm_mode_modeinfo modes[] = {
    MODE("1920x1080", DRM_MODE_TYPE_PREFERRED, 148500, 1920, 2008, 2052, 2200, 1080, 1084, 1089,
         1125, BOTH_UP),
    MODE("1280x720", 0, 74250, 1280, 1390, 1430, 1650, 720, 725, 730, 750, BOTH_UP),
    MODE("1024x768", 0, 65000, 1024, 1048, 1184, 1344, 768, 771, 777, 806, BOTH_DOWN),
    MODE("800x600", 0, 40000, 800, 840, 968, 1056, 600, 601, 605, 628, BOTH_UP),
    MODE("640x480", 0, 25175, 640, 656, 752, 800, 480, 490, 492, 525, BOTH_DOWN),
};

const struct drm_mode_modeinfo *all_modes(uint32_t *count)
{
    *count = sizeof modes / sizeof modes[0];
    return modes;
}

/* Returns whether the aspect ratio is one that the core knows. */
static bool has_known_aspect_ratio(uint32_t flags)
{
    switch (flags & DRM_MODE_FLAG_PIC_AR_MASK) {
    case DRM_MODE_FLAG_PIC_AR_NONE:
    case DRM_MODE_FLAG_PIC_AR_4_3:
    case DRM_MODE_FLAG_PIC_AR_16_9:
    case DRM_MODE_FLAG_PIC_AR_64_27:
    case DRM_MODE_FLAG_PIC_AR_256_135:
        return true;
    default:
        return false;
    }
}

/* Returns whether the numbers of a line or a frame rise. */
static bool rises(uint32_t display, uint32_t sync_start, uint32_t sync_end, uint32_t total)
{
    return display != 0 && display <= sync_start && sync_start <= sync_end && sync_end <= total;
}

/* A driver can refuse more modes than drm_mode_validate_basic does. This one accepts the others. */
int check_mode(const struct drm_mode_modeinfo *mode)
{
    const uint32_t known = DRM_MODE_FLAG_ALL | DRM_MODE_FLAG_PIC_AR_MASK;

    if (mode->clock > INT32_MAX || mode->vrefresh > INT32_MAX)
        return -ERANGE;
    if (mode->clock == 0 || (mode->flags & ~known) || !has_known_aspect_ratio(mode->flags)
        || (mode->flags & DRM_MODE_FLAG_3D_MASK) > DRM_MODE_FLAG_3D_SIDE_BY_SIDE_HALF)
        return -EINVAL;
    return rises(mode->hdisplay, mode->hsync_start, mode->hsync_end, mode->htotal)
                   && rises(mode->vdisplay, mode->vsync_start, mode->vsync_end, mode->vtotal)
               ? 0
               : -EINVAL;
}
