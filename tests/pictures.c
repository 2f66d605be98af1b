/* Pictures in C: pictures CRTC KEPT TOLERANCE. Prints what the picture has, and how it compares. */
#include "drm_pictures.h"

int main(int count, char **words)
{
    struct zirkoshe_picture picture;
    int failed;

    if (count != 4)
        return 2;
    failed = zirkoshe_screenshot(&picture, NULL, (uint32_t)atoi(words[1]));
    printf("taken %d\n", failed);
    if (failed)
        return 0;
    printf("size %u %u, first %u %u %u\n", (unsigned)picture.width, (unsigned)picture.height,
           picture.pixels[0], picture.pixels[1], picture.pixels[2]);
    printf("compared %d\n", zirkoshe_expect_picture(&picture, words[2], (unsigned)atoi(words[3])));
    zirkoshe_picture_free(&picture);
    return 0;
}
