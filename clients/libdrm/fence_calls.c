/* Answers to requests on the descriptor of a fence, as a sync_file of the kernel gives them. */
#include "answers.h"

#include "ioctls.h"
#include "proxies.h"

#include <inttypes.h>
#include <linux/sync_file.h>
#include <stdio.h>
#include <stdlib.h>

/* What a driver is called whose fence is signalled by itself */
#define NO_DRIVER "stub"

static void name_timeline(char *name, size_t room, const struct fence_description *described)
{
    if (described->crtc_id != 0)
        snprintf(name, room, "CRTC:%u", described->crtc_id);
    else
        snprintf(name, room, NO_DRIVER);
}

static const char *driver_of(const struct fence_description *described)
{
    return described->crtc_id != 0 ? driver_name() : NO_DRIVER;
}

/* The name of a descriptor that has none */
static void name_fence(char *name, size_t room, const struct fence *fence)
{
    const struct fence_description itself = fence_itself(fence);
    char timeline[16];

    name_timeline(timeline, sizeof timeline, &itself);
    snprintf(name, room, "%.10s-%s%" PRIu64 "-%" PRIu64, driver_of(&itself), timeline,
             itself.context, itself.number);
}

static int merge(struct fence *fence, struct sync_merge_data *asked)
{
    struct fence *other = fence_of_descriptor(caller_descriptor(0)), *merged;
    int fd;

    if (asked->flags != 0 || asked->pad != 0)
        return -EINVAL;
    if (other == NULL)
        return -ENOENT;
    merged = fence_of_two(caller_user(), fence, other);
    if (merged == NULL)
        return -ENOMEM;
    asked->name[sizeof asked->name - 1] = '\0';
    fd = proxy_of_fence(merged, asked->name);
    fence_drop(merged);
    return fd < 0 ? fd : outcome_has(fd);
}

static struct sync_fence_info info_of(const struct fence_description *described)
{
    struct sync_fence_info info = {.status = described->is_signaled,
                                   .timestamp_ns = (uint64_t)described->time};

    name_timeline(info.obj_name, sizeof info.obj_name, described);
    snprintf(info.driver_name, sizeof info.driver_name, "%s", driver_of(described));
    return info;
}

/* Gives what each of the fences is, and whether all are signalled. */
static int give_fences(struct fence *fence, struct sync_file_info *info, uint32_t count)
{
    struct fence_description *described = calloc(count, sizeof *described);
    struct sync_fence_info *infos = calloc(count, sizeof *infos);
    int failed = described == NULL || infos == NULL ? -ENOMEM : 0;
    uint32_t at;

    info->status = 1;
    if (!failed)
        fence_describe(fence, described, count);
    for (at = 0; !failed && at < count; at++) {
        infos[at] = info_of(&described[at]);
        info->status = info->status == 0 ? 0 : infos[at].status;
    }
    if (!failed)
        failed = copy_to_caller(info->sync_fence_info, infos, count * sizeof *infos);
    free(described);
    free(infos);
    return failed;
}

static int give_info(struct fence *fence, const char *name, struct sync_file_info *info)
{
    uint32_t count;
    int failed = 0;

    if (info->flags != 0 || info->pad != 0)
        return -EINVAL;
    count = fence_describe(fence, NULL, 0);
    if (info->num_fences != 0 && info->num_fences < count)
        return -EINVAL;
    if (info->num_fences == 0)
        info->status = fence_is_signaled(fence);
    else
        failed = give_fences(fence, info, count);
    if (failed)
        return failed;
    memset(info->name, 0, sizeof info->name);
    if (name[0] != '\0')
        memcpy(info->name, name, strlen(name));
    else
        name_fence(info->name, sizeof info->name, fence);
    info->num_fences = count;
    return 0;
}

int carry_out_on_fence(struct fence *fence, const char *name, uint32_t request, void *argument)
{
    outcome()->name = request == SYNC_IOC_MERGE ? "SYNC_IOC_MERGE" : "SYNC_IOC_FILE_INFO";
    if (request == SYNC_IOC_MERGE)
        return merge(fence, argument);
    return request == SYNC_IOC_FILE_INFO ? give_info(fence, name, argument) : -ENOTTY;
}
