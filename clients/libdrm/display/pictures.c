/* Pictures of what CRTCs show. A pixel is the one of the source that is nearest to its centre. */
#include "pictures.h"

#include "pixels.h"

#include <fcntl.h>
#include <stdlib.h>
#include <sys/mman.h>

/* The most pixels of a picture, and the most bytes that are copied of a plane */
#define MOST_PIXELS ((uint64_t)1 << 26)
#define MOST_COPIED ((uint64_t)1 << 30)
/* The size of a huge page, if the system has such */
#define HUGE_PAGE ((size_t)1 << 21)

/* One axis of a plane: where it is on the CRTC, and what it shows of its framebuffer. */
struct axis {
    int64_t position;
    uint64_t length;
    uint64_t source, source_length; /* in 16.16 fixed point */
    uint32_t size;                  /* of the framebuffer */
    uint32_t every;                 /* from one pixel of the picture to the next, on the CRTC */
    int64_t first, end;             /* what is in the picture */
};

struct plane_copy {
    const struct pixel_form *form;
    struct axis across, down;
    int memory; /* -1 if it has none, and so shows zeros */
    uint32_t pitch;
    size_t span;    /* the bytes of a row */
    uint8_t *bytes; /* a row of the source for each row on the CRTC */
};

static int64_t least(int64_t one, int64_t other)
{
    return one < other ? one : other;
}

/* Returns how many pixels of a picture are before a place on the CRTC. */
static int64_t before(int64_t place, uint32_t every)
{
    return place <= 0 ? 0 : (place + every - 1) / every;
}

static struct axis across_of(const struct shown_plane *shown, const struct screen_copy *copy)
{
    const struct plane_state *state = &shown->state;
    int64_t position = (int32_t)state->crtc_x;

    return (struct axis){
        .position = position,
        .length = state->crtc_w,
        .source = state->src_x,
        .source_length = state->src_w,
        .size = shown->framebuffer.width,
        .every = copy->every,
        .first = before(position, copy->every),
        .end = before(least(position + state->crtc_w, copy->screen.mode.hdisplay), copy->every)};
}

static struct axis down_of(const struct shown_plane *shown, const struct screen_copy *copy)
{
    const struct plane_state *state = &shown->state;
    int64_t position = (int32_t)state->crtc_y;

    return (struct axis){
        .position = position,
        .length = state->crtc_h,
        .source = state->src_y,
        .source_length = state->src_h,
        .size = shown->framebuffer.height,
        .every = copy->every,
        .first = before(position, copy->every),
        .end = before(least(position + state->crtc_h, copy->screen.mode.vdisplay), copy->every)};
}

/* Returns the place in the source that a place in the picture shows. */
static uint32_t source_at(const struct axis *axis, int64_t place)
{
    uint64_t centre = 2 * (uint64_t)(place * axis->every - axis->position) + 1;
    uint64_t at = (axis->source + centre * axis->source_length / (2 * axis->length)) >> 16;

    return (uint32_t)least((int64_t)at, (int64_t)axis->size - 1);
}

static bool is_seen(const struct axis *axis)
{
    return axis->first < axis->end && axis->size > 0;
}

/* Returns the first byte of a row that is shown. */
static size_t first_byte(const struct plane_copy *plane)
{
    return (size_t)source_at(&plane->across, plane->across.first) * plane->form->bytes;
}

/* Prepares the copy of a plane; NULL if it shows nothing of known pixels. */
static struct plane_copy *make(const struct shown_plane *shown, const struct screen_copy *copy)
{
    const struct pixel_form *form = pixel_form_of(shown->framebuffer.format);
    const struct object *object = framebuffer_object(shown->state.fb_id);
    struct plane_copy *made = form == NULL || object == NULL ? NULL : calloc(1, sizeof *made);

    if (made == NULL)
        return NULL;
    made->form = form;
    made->memory = object_memory(object);
    made->pitch = shown->framebuffer.pitch;
    made->across = across_of(shown, copy);
    made->down = down_of(shown, copy);
    return made;
}

int screen_copy_open(struct screen_copy *copy)
{
    const struct drm_mode_modeinfo *mode = &copy->screen.mode;
    uint32_t at;

    memset(copy->planes, 0, sizeof copy->planes);
    copy->width = (size_t)before(mode->hdisplay, copy->every);
    copy->height = (size_t)before(mode->vdisplay, copy->every);
    if (copy->width * copy->height > MOST_PIXELS)
        return -EFBIG;
    for (at = 0; at < copy->screen.count; at++)
        copy->planes[at] = make(&copy->screen.planes[at], copy);
    return 0;
}

/* Allocates zeros, in huge pages if they fill some: pictures are large. Frees with free. */
static void *allocate(size_t size)
{
    size_t whole = (size + HUGE_PAGE - 1) / HUGE_PAGE * HUGE_PAGE;
    void *made = size < HUGE_PAGE ? malloc(size) : aligned_alloc(HUGE_PAGE, whole);

    if (made != NULL && size >= HUGE_PAGE)
        madvise(made, whole, MADV_HUGEPAGE);
    return made == NULL ? NULL : memset(made, 0, size);
}

/* Copies the rows. What is not in the memory is 0. */
static int fill(struct plane_copy *plane)
{
    uint64_t rows = (uint64_t)(plane->down.end - plane->down.first);
    size_t first = first_byte(plane);
    int64_t at;

    plane->span = (size_t)source_at(&plane->across, plane->across.end - 1) * plane->form->bytes
                  + plane->form->bytes - first;
    if (rows * plane->span > MOST_COPIED)
        return -EFBIG;
    plane->bytes = allocate(rows * plane->span);
    if (plane->bytes == NULL)
        return -ENOMEM;
    for (at = plane->down.first; plane->memory >= 0 && at < plane->down.end; at++) {
        uint8_t *row = plane->bytes + (size_t)(at - plane->down.first) * plane->span;
        off_t place = (off_t)plane->pitch * source_at(&plane->down, at) + (off_t)first;

        if (pread(plane->memory, row, plane->span, place) < 0)
            return -EIO;
    }
    return 0;
}

int screen_copy_fill(struct screen_copy *copy)
{
    uint32_t at;
    int failed = 0;

    for (at = 0; !failed && at < copy->screen.count; at++) {
        struct plane_copy *plane = copy->planes[at];

        if (plane != NULL && is_seen(&plane->across) && is_seen(&plane->down))
            failed = fill(plane);
    }
    return failed;
}

void screen_copy_free(struct screen_copy *copy)
{
    uint32_t at;

    for (at = 0; at < copy->screen.count; at++) {
        struct plane_copy *plane = copy->planes[at];

        if (plane == NULL)
            continue;
        if (plane->memory >= 0)
            close(plane->memory);
        free(plane->bytes);
        free(plane);
    }
}

/* Finds where in a copied row each pixel is. */
static void find_offsets(const struct plane_copy *plane, uint32_t *offsets)
{
    size_t first = first_byte(plane);
    int64_t at;

    for (at = plane->across.first; at < plane->across.end; at++)
        *offsets++ = (uint32_t)(source_at(&plane->across, at) * (size_t)plane->form->bytes - first);
}

static void draw_rows(const struct plane_copy *plane, const struct pixel_reader *reader,
                      uint32_t *picture, size_t width)
{
    bool has_alpha = plane->form->channels[CHANNEL_ALPHA].count > 0;
    size_t count = (size_t)(plane->across.end - plane->across.first);
    uint32_t offsets[UINT16_MAX], pixels[UINT16_MAX]; /* no mode is wider */
    int64_t at;

    find_offsets(plane, offsets);
    for (at = plane->down.first; at < plane->down.end; at++) {
        const uint8_t *row = plane->bytes + (size_t)(at - plane->down.first) * plane->span;
        uint32_t *over = picture + (size_t)at * width + (size_t)plane->across.first;

        pixels_read(reader, row, offsets, count, has_alpha ? pixels : over);
        if (has_alpha)
            pixels_blend(pixels, count, over);
    }
}

static bool draw(const struct plane_copy *plane, uint32_t *picture, size_t width)
{
    struct pixel_reader reader;

    if (plane == NULL || plane->bytes == NULL)
        return true;
    if (!pixel_reader_begin(&reader, plane->form))
        return false;
    draw_rows(plane, &reader, picture, width);
    pixel_reader_end(&reader);
    return true;
}

/* Draws all planes on black, the first one at the bottom. */
static bool draw_all(const struct screen_copy *copy, uint32_t *picture)
{
    bool is_done = true;
    uint32_t at;

    for (at = 0; is_done && at < copy->screen.count; at++)
        is_done = draw(copy->planes[at], picture, copy->width);
    return is_done;
}

/* Returns red, green and blue of each pixel. */
static uint8_t *pack(const uint32_t *picture, size_t count)
{
    uint8_t *bytes = allocate(3 * count);
    size_t at;

    for (at = 0; bytes != NULL && at < count; at++) {
        bytes[3 * at] = (uint8_t)(picture[at] >> 16);
        bytes[3 * at + 1] = (uint8_t)(picture[at] >> 8);
        bytes[3 * at + 2] = (uint8_t)picture[at];
    }
    return bytes;
}

uint8_t *screen_copy_compose(const struct screen_copy *copy, size_t *size)
{
    size_t count = copy->width * copy->height;
    uint32_t *picture = allocate(count * sizeof *picture);
    uint8_t *bytes = picture != NULL && draw_all(copy, picture) ? pack(picture, count) : NULL;

    free(picture);
    *size = 3 * count;
    return bytes;
}
