/* Answers of a driver without the call. The core finds that out last. */
#include "answers.h"

#include "framebuffers.h"

/* What drm_mode_dirtyfb_ioctl refuses before it asks the driver. */
int lacks_dirty(struct connection *connection, void *argument)
{
    const struct drm_mode_fb_dirty_cmd *dirty = argument;
    bool is_copy = (dirty->flags & DRM_MODE_FB_DIRTY_ANNOTATE_COPY) != 0;
    struct drm_clip_rect clips[DRM_MODE_FB_DIRTY_MAX_CLIPS];
    struct framebuffer framebuffer;
    int failed = framebuffer_find(connection, dirty->fb_id, &framebuffer);

    if (failed)
        return failed;
    if ((dirty->num_clips == 0) != (dirty->clips_ptr == 0) || (is_copy && dirty->num_clips % 2 != 0)
        || dirty->num_clips > DRM_MODE_FB_DIRTY_MAX_CLIPS)
        return -EINVAL;
    failed = copy_from_caller(clips, dirty->clips_ptr, dirty->num_clips * sizeof *clips);
    return failed ? failed : -ENOSYS;
}
