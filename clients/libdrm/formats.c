/* Formats of pixels that have one plane and whole pixels. */
#include "answers.h"

/* the bits of a pixel, and how many of them are colour, as ADDFB has it */
static const struct {
    uint32_t format, bits, depth;
} formats[] = {
    {DRM_FORMAT_XRGB8888, 32, 24},
    {DRM_FORMAT_ARGB8888, 32, 32},
    {DRM_FORMAT_XBGR8888, 32, 24},
    {DRM_FORMAT_ABGR8888, 32, 32},
    {DRM_FORMAT_RGBX8888, 32, 24},
    {DRM_FORMAT_RGBA8888, 32, 32},
    {DRM_FORMAT_BGRX8888, 32, 24},
    {DRM_FORMAT_BGRA8888, 32, 32},
    {DRM_FORMAT_XRGB2101010, 32, 30},
    {DRM_FORMAT_ARGB2101010, 32, 32},
    {DRM_FORMAT_XBGR2101010, 32, 30},
    {DRM_FORMAT_ABGR2101010, 32, 32},
    {DRM_FORMAT_RGB888, 24, 24},
    {DRM_FORMAT_BGR888, 24, 24},
    {DRM_FORMAT_RGB565, 16, 16},
    {DRM_FORMAT_BGR565, 16, 16},
    {DRM_FORMAT_XRGB1555, 16, 15},
    {DRM_FORMAT_ARGB1555, 16, 16},
    {DRM_FORMAT_XRGB4444, 16, 12},
    {DRM_FORMAT_ARGB4444, 16, 16},
    {DRM_FORMAT_C8, 8, 8},
    {DRM_FORMAT_R8, 8, 8},
    {DRM_FORMAT_XRGB16161616F, 64, 48},
    {DRM_FORMAT_ARGB16161616F, 64, 64},
    {DRM_FORMAT_XBGR16161616F, 64, 48},
    {DRM_FORMAT_ABGR16161616F, 64, 64},
};

#define COUNT (sizeof formats / sizeof formats[0])

uint32_t bits_of_format(uint32_t format)
{
    size_t at;

    for (at = 0; at < COUNT; at++) {
        if (formats[at].format == format)
            return formats[at].bits;
    }
    return 0;
}

/* The first format of N bits represents them: XRGB8888, RGB888, RGB565, C8. */
static size_t place_of_bits(uint32_t bits)
{
    size_t at = 0;

    while (at < COUNT && formats[at].bits != bits)
        at++;
    return at;
}

uint32_t format_of_bits(uint32_t bits)
{
    size_t at = place_of_bits(bits);

    return at < COUNT ? formats[at].format : 0;
}

uint32_t depth_of_bits(uint32_t bits)
{
    size_t at = place_of_bits(bits);

    return at < COUNT ? formats[at].depth : bits;
}

uint32_t format_of_depth(uint32_t bits, uint32_t depth)
{
    size_t at;

    for (at = 0; at < COUNT; at++) {
        if (formats[at].bits == bits && formats[at].depth == depth)
            return formats[at].format;
    }
    return 0;
}

const uint32_t *all_formats(uint32_t *count)
{
    static uint32_t all[COUNT];
    size_t at;

    for (at = 0; at < COUNT; at++)
        all[at] = formats[at].format;
    *count = COUNT;
    return all;
}
