/* A picture of what a CRTC shows. */
#ifndef ZIRKOSHE_LIBDRM_PICTURES_H
#define ZIRKOSHE_LIBDRM_PICTURES_H

#include "screens.h"

struct plane_copy;

/* A screen with a copy of the pixels that its planes show */
struct screen_copy {
    struct screen screen;
    uint32_t every;       /* the picture has each pixel of this number of each such row */
    size_t width, height; /* of the picture */
    struct plane_copy *planes[2 * MOST_OBJECTS];
};

/* Opens the memory of what is shown. The caller has the lock. Copies what is shown of it, for which
 * no lock is needed, but a turn: what a client shows does not change meanwhile. Return 0, or a
 * negative errno: EFBIG if the picture, or what it shows, is too large. Frees the copy. */
int screen_copy_open(struct screen_copy *copy);
int screen_copy_fill(struct screen_copy *copy);
void screen_copy_free(struct screen_copy *copy);

/* Composes a picture of the copy: red, green and blue of each pixel. Returns its bytes, which the
 * caller frees, or NULL. */
uint8_t *screen_copy_compose(const struct screen_copy *copy, size_t *size);

#endif
