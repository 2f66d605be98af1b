/* Pictures of what a display shows to unchanged libdrm programs, for C99 and C++11 or later, on
 * Linux.
 *
 *     struct zirkoshe_picture picture;
 *
 *     if (zirkoshe_screenshot(&picture, NULL, 1) == 0) {
 *         assert(zirkoshe_expect_picture(&picture, "kept.ppm", 0) == 0);
 *         zirkoshe_picture_free(&picture);
 *     }
 *
 * Kept pictures are files of the format PPM, which has no compression: "P6", the size, 255, and
 * red, green and blue of each pixel. Include this header before all others, or define
 * _POSIX_C_SOURCE as 200809L.
 */
#ifndef ZIRKOSHE_DRM_PICTURES_H
#define ZIRKOSHE_DRM_PICTURES_H

#ifndef _POSIX_C_SOURCE
#define _POSIX_C_SOURCE 200809L
#endif

#include <stdint.h>
#include <stdio.h>
#include <stdlib.h>

#include "drm_client.h"

#define ZIRKOSHE_PIXEL 3
/* The sizes of an answer of the display without its pixels, and of a path, with their ends */
#define ZIRKOSHE_MOST_SIZE 256
#define ZIRKOSHE_MOST_PICTURE 4096
/* How wide and how high a picture may be */
#define ZIRKOSHE_MOST_SIDE 65535u

/* Red, green and blue of each pixel, row by row. */
struct zirkoshe_picture {
    uint32_t width, height;
    unsigned char *pixels;
};

/* Frees the pixels. */
static inline void zirkoshe_picture_free(struct zirkoshe_picture *picture)
{
    free(picture->pixels);
    picture->pixels = NULL;
}

static inline size_t zirkoshe_picture_size(const struct zirkoshe_picture *picture)
{
    return ZIRKOSHE_CAST(size_t, picture->width) * picture->height * ZIRKOSHE_PIXEL;
}

/* Allocates the pixels of a picture that has a size, which are black; 0 or a negative errno. */
static inline int zirkoshe_picture_allocate(struct zirkoshe_picture *picture)
{
    picture->pixels = NULL;
    if (picture->width == 0 || picture->height == 0 || picture->width > ZIRKOSHE_MOST_SIDE
        || picture->height > ZIRKOSHE_MOST_SIDE)
        return -EINVAL;
    picture->pixels = ZIRKOSHE_CAST(unsigned char *, calloc(zirkoshe_picture_size(picture), 1));
    return picture->pixels == NULL ? -ENOMEM : 0;
}

/* Reads the pixels of a picture that has a size; 0 or a negative errno. */
static inline int zirkoshe_picture_fill(struct zirkoshe_picture *picture, FILE *file)
{
    int failed = zirkoshe_picture_allocate(picture);

    if (!failed && fread(picture->pixels, zirkoshe_picture_size(picture), 1, file) != 1) {
        zirkoshe_picture_free(picture);
        failed = -EPROTO;
    }
    return failed;
}

/* Connects to the control socket of a display; a descriptor or a negative errno. */
static inline int zirkoshe_display_connect(const char *display)
{
    struct sockaddr_un address;
    int length, failed;
    int fd = socket(AF_UNIX, SOCK_STREAM | SOCK_CLOEXEC, 0);

    if (fd < 0)
        return -errno;
    memset(&address, 0, sizeof address);
    address.sun_family = AF_UNIX;
    length = snprintf(address.sun_path, sizeof address.sun_path, "%s.control", display);
    if (length < 0 || ZIRKOSHE_CAST(size_t, length) >= sizeof address.sun_path)
        errno = ENAMETOOLONG;
    else if (connect(fd, ZIRKOSHE_CAST(struct sockaddr *, ZIRKOSHE_CAST(void *, &address)),
                     sizeof address)
             == 0)
        return fd;
    failed = -errno;
    close(fd);
    return failed;
}

/* Reads the answer to a line that asks for a picture. */
static inline int zirkoshe_picture_receive(struct zirkoshe_picture *picture, FILE *display)
{
    char answer[ZIRKOSHE_MOST_SIZE];
    const char *error;

    if (fgets(answer, sizeof answer, display) == NULL)
        return -EPROTO;
    error = strstr(answer, "\"errno\": ");
    if (error != NULL)
        return -atoi(error + strlen("\"errno\": "));
    if (sscanf(answer, "{\"width\": %u, \"height\": %u}", &picture->width, &picture->height) != 2)
        return -EPROTO;
    return zirkoshe_picture_fill(picture, display);
}

/* Takes a picture of what a CRTC shows. `display` is the path of the display's socket, or NULL for
 * that of DRM_SERVER_DISPLAY. Returns 0 or a negative errno: ENOENT if there is no such CRTC, or
 * no display. The caller frees the picture. */
static inline int zirkoshe_screenshot(struct zirkoshe_picture *picture, const char *display,
                                      uint32_t crtc_id)
{
    FILE *answers;
    int fd, failed = -ENOMEM;

    if (display == NULL)
        display = getenv("DRM_SERVER_DISPLAY");
    if (display == NULL)
        return -ENOENT;
    fd = zirkoshe_display_connect(display);
    if (fd < 0)
        return fd;
    answers = fdopen(fd, "r");
    if (answers == NULL) {
        close(fd);
        return failed;
    }
    failed = dprintf(fd, "picture %u 1\n", ZIRKOSHE_CAST(unsigned, crtc_id)) < 0 ? -errno : 0;
    if (!failed)
        failed = zirkoshe_picture_receive(picture, answers);
    fclose(answers);
    return failed;
}

/* Writes a picture to a PPM file; 0 or a negative errno. */
static inline int zirkoshe_picture_write(const struct zirkoshe_picture *picture, const char *path)
{
    FILE *file = fopen(path, "we");
    int failed = 0;

    if (file == NULL)
        return -errno;
    if (fprintf(file, "P6\n%u %u\n255\n", ZIRKOSHE_CAST(unsigned, picture->width),
                ZIRKOSHE_CAST(unsigned, picture->height))
            < 0
        || fwrite(picture->pixels, zirkoshe_picture_size(picture), 1, file) != 1)
        failed = -EIO;
    if (fclose(file) != 0)
        failed = -EIO;
    return failed;
}

/* Reads a picture from a PPM file; 0 or a negative errno: EPROTO if it is none. */
static inline int zirkoshe_picture_read(struct zirkoshe_picture *picture, const char *path)
{
    FILE *file = fopen(path, "re");
    unsigned most = 0;
    int failed = -EPROTO;

    if (file == NULL)
        return -errno;
    if (fscanf(file, "P6 %u %u %u", &picture->width, &picture->height, &most) == 3 && most == 255
        && fgetc(file) != EOF)
        failed = zirkoshe_picture_fill(picture, file);
    fclose(file);
    return failed;
}

/* Returns how many pixels differ by more than the tolerance. These are white in a picture of the
 * same size. */
static inline size_t zirkoshe_picture_compare(const struct zirkoshe_picture *one,
                                              const struct zirkoshe_picture *other,
                                              unsigned tolerance, struct zirkoshe_picture *marks)
{
    size_t at, marked = SIZE_MAX, count = 0;

    for (at = 0; at < zirkoshe_picture_size(one); at++) {
        size_t pixel = at / ZIRKOSHE_PIXEL;
        int apart = one->pixels[at] - other->pixels[at];

        if (pixel == marked || ZIRKOSHE_CAST(unsigned, abs(apart)) <= tolerance)
            continue;
        marked = pixel;
        count++;
        memset(marks->pixels + pixel * ZIRKOSHE_PIXEL, 255, ZIRKOSHE_PIXEL);
    }
    return count;
}

/* Writes a picture next to a kept one: NAME.WHAT.ppm next to NAME.ppm. */
static inline void zirkoshe_picture_keep(const struct zirkoshe_picture *picture, const char *kept,
                                         const char *what)
{
    const char *dot = strrchr(kept, '.');
    char path[ZIRKOSHE_MOST_PICTURE];
    int length = ZIRKOSHE_CAST(int, dot == NULL ? strlen(kept) : ZIRKOSHE_CAST(size_t, dot - kept));
    int failed;

    snprintf(path, sizeof path, "%.*s.%s.ppm", length, kept, what);
    failed = zirkoshe_picture_write(picture, path);
    fprintf(stderr, "%s: %s\n", path, failed ? strerror(-failed) : what);
}

/* Compares with a kept picture of the same size, and writes both differences. */
static inline int zirkoshe_picture_judge(const struct zirkoshe_picture *picture,
                                         const struct zirkoshe_picture *wanted, const char *kept,
                                         unsigned tolerance)
{
    struct zirkoshe_picture marks = {picture->width, picture->height, NULL};
    int failed = zirkoshe_picture_allocate(&marks);
    size_t count;

    if (failed)
        return failed;
    count = zirkoshe_picture_compare(picture, wanted, tolerance, &marks);
    if (count > 0) {
        fprintf(stderr, "%s: %zu pixels differ\n", kept, count);
        zirkoshe_picture_keep(picture, kept, "found");
        zirkoshe_picture_keep(&marks, kept, "difference");
    }
    zirkoshe_picture_free(&marks);
    return count > 0;
}

/* Compares a picture with a kept one, of which each colour may differ by the tolerance. Returns 0,
 * 1 if they differ, or a negative errno: ENOENT if there is no kept one. If they differ, it writes
 * NAME.found.ppm and NAME.difference.ppm, which is white where they differ. If there is none, or it
 * has another size, it writes the first one only. */
static inline int zirkoshe_expect_picture(const struct zirkoshe_picture *picture, const char *kept,
                                          unsigned tolerance)
{
    struct zirkoshe_picture wanted = {0, 0, NULL};
    int failed = zirkoshe_picture_read(&wanted, kept);

    if (failed == -ENOENT)
        zirkoshe_picture_keep(picture, kept, "found");
    if (failed)
        return failed;
    if (picture->width != wanted.width || picture->height != wanted.height) {
        fprintf(stderr, "%s: another size\n", kept);
        zirkoshe_picture_keep(picture, kept, "found");
        failed = 1;
    } else {
        failed = zirkoshe_picture_judge(picture, &wanted, kept, tolerance);
    }
    zirkoshe_picture_free(&wanted);
    return failed;
}

#endif
