/* The pixels of each format. */
#include "pixels.h"

#include <drm_fourcc.h>
#include <math.h>
#include <stdlib.h>
#include <string.h>

#define NONE                                                                                       \
    {                                                                                              \
        0, 0                                                                                       \
    }
#define FORM(name, bytes, red_at, green_at, blue_at, count)                                        \
    {                                                                                              \
        DRM_FORMAT_##name, bytes, false,                                                           \
        {                                                                                          \
            {blue_at, count}, {green_at, count}, {red_at, count}, NONE                             \
        }                                                                                          \
    }
#define FORM_ALPHA(name, bytes, red_at, green_at, blue_at, count, alpha_at, alpha)                 \
    {                                                                                              \
        DRM_FORMAT_##name, bytes, false,                                                           \
        {                                                                                          \
            {blue_at, count}, {green_at, count}, {red_at, count},                                  \
            {                                                                                      \
                alpha_at, alpha                                                                    \
            }                                                                                      \
        }                                                                                          \
    }
#define FORM_565(name, red_at, blue_at)                                                            \
    {                                                                                              \
        DRM_FORMAT_##name, 2, false,                                                               \
        {                                                                                          \
            {blue_at, 5}, {5, 6}, {red_at, 5}, NONE                                                \
        }                                                                                          \
    }
#define FORM_HALF(name, red_at, blue_at, alpha)                                                    \
    {                                                                                              \
        DRM_FORMAT_##name, 8, true,                                                                \
        {                                                                                          \
            {blue_at, 16}, {16, 16}, {red_at, 16},                                                 \
            {                                                                                      \
                48, alpha                                                                          \
            }                                                                                      \
        }                                                                                          \
    }

/* The table of formats.c has the same formats. Without a gamma table, C8 is a level of grey. */
static const struct pixel_form forms[] = {
    FORM(XRGB8888, 4, 16, 8, 0, 8),
    FORM_ALPHA(ARGB8888, 4, 16, 8, 0, 8, 24, 8),
    FORM(XBGR8888, 4, 0, 8, 16, 8),
    FORM_ALPHA(ABGR8888, 4, 0, 8, 16, 8, 24, 8),
    FORM(RGBX8888, 4, 24, 16, 8, 8),
    FORM_ALPHA(RGBA8888, 4, 24, 16, 8, 8, 0, 8),
    FORM(BGRX8888, 4, 8, 16, 24, 8),
    FORM_ALPHA(BGRA8888, 4, 8, 16, 24, 8, 0, 8),
    FORM(XRGB2101010, 4, 20, 10, 0, 10),
    FORM_ALPHA(ARGB2101010, 4, 20, 10, 0, 10, 30, 2),
    FORM(XBGR2101010, 4, 0, 10, 20, 10),
    FORM_ALPHA(ABGR2101010, 4, 0, 10, 20, 10, 30, 2),
    FORM(RGB888, 3, 16, 8, 0, 8),
    FORM(BGR888, 3, 0, 8, 16, 8),
    FORM_565(RGB565, 11, 0),
    FORM_565(BGR565, 0, 11),
    FORM(XRGB1555, 2, 10, 5, 0, 5),
    FORM_ALPHA(ARGB1555, 2, 10, 5, 0, 5, 15, 1),
    FORM(XRGB4444, 2, 8, 4, 0, 4),
    FORM_ALPHA(ARGB4444, 2, 8, 4, 0, 4, 12, 4),
    FORM(C8, 1, 0, 0, 0, 8),
    {DRM_FORMAT_R8, 1, false, {NONE, NONE, {0, 8}, NONE}},
    FORM_HALF(XRGB16161616F, 32, 0, 0),
    FORM_HALF(ARGB16161616F, 32, 0, 16),
    FORM_HALF(XBGR16161616F, 0, 32, 0),
    FORM_HALF(ABGR16161616F, 0, 32, 16),
};

const struct pixel_form *pixel_form_of(uint32_t format)
{
    size_t at;

    for (at = 0; at < sizeof forms / sizeof forms[0]; at++) {
        if (forms[at].format == format)
            return &forms[at];
    }
    return NULL;
}

/* The level of a floating-point number of 16 bits: 1 is 255. */
static uint8_t level_of_half(uint32_t value)
{
    uint32_t exponent = value >> 10 & 31, fraction = value & 1023;
    double number =
        exponent == 0 ? ldexp(fraction, -24) : ldexp(1024 + fraction, (int)exponent - 25);

    if (value >> 15 || (exponent == 31 && fraction != 0))
        return 0;
    return number >= 1 ? 255 : (uint8_t)(number * 255 + 0.5);
}

static uint8_t level_of(uint32_t value, uint32_t most)
{
    return (uint8_t)((value * 255 + most / 2) / most);
}

/* Makes the levels of a channel. One that the form has not has one value: no colour, or all of
 * alpha. */
static uint8_t *make_levels(const struct pixel_form *form, enum channel channel)
{
    uint32_t count = 1u << form->channels[channel].count, value;
    uint8_t *levels = malloc(count);

    if (levels == NULL)
        return NULL;
    for (value = 0; value < count && count > 1; value++)
        levels[value] = form->is_half ? level_of_half(value) : level_of(value, count - 1);
    if (count == 1)
        levels[0] = channel == CHANNEL_ALPHA ? 255 : 0;
    return levels;
}

bool pixel_reader_begin(struct pixel_reader *reader, const struct pixel_form *form)
{
    bool has_all = true;
    int channel;

    reader->form = form;
    reader->is_plain = form->format == DRM_FORMAT_XRGB8888 || form->format == DRM_FORMAT_ARGB8888;
    for (channel = 0; channel < CHANNELS; channel++) {
        reader->levels[channel] = make_levels(form, (enum channel)channel);
        has_all = has_all && reader->levels[channel] != NULL;
    }
    if (!has_all)
        pixel_reader_end(reader);
    return has_all;
}

void pixel_reader_end(struct pixel_reader *reader)
{
    int channel;

    for (channel = 0; channel < CHANNELS; channel++)
        free(reader->levels[channel]);
}

static uint64_t number_at(const uint8_t *place, unsigned bytes)
{
    uint64_t number = 0;

    switch (bytes) {
    case 1:
        return *place;
    case 2:
        memcpy(&number, place, 2);
        return number;
    case 3:
        memcpy(&number, place, 3);
        return number;
    case 4:
        memcpy(&number, place, 4);
        return number;
    default:
        memcpy(&number, place, 8);
        return number;
    }
}

static uint32_t level_in(const struct pixel_reader *reader, enum channel channel, uint64_t number)
{
    const struct bits *bits = &reader->form->channels[channel];

    return reader->levels[channel][number >> bits->shift & ((1u << bits->count) - 1)];
}

static uint32_t convert(const struct pixel_reader *reader, uint64_t number)
{
    return level_in(reader, CHANNEL_ALPHA, number) << 24
           | level_in(reader, CHANNEL_RED, number) << 16
           | level_in(reader, CHANNEL_GREEN, number) << 8 | level_in(reader, CHANNEL_BLUE, number);
}

/* Pixels that are next to each other are copied at once. */
static void read_plain(const uint8_t *row, const uint32_t *offsets, size_t count, uint32_t *pixels)
{
    bool is_whole = offsets[count - 1] - offsets[0] == (count - 1) * sizeof *pixels;
    size_t at;

    if (is_whole)
        memcpy(pixels, row + offsets[0], count * sizeof *pixels);
    for (at = 0; !is_whole && at < count; at++)
        memcpy(&pixels[at], row + offsets[at], sizeof *pixels);
}

void pixels_read(const struct pixel_reader *reader, const uint8_t *row, const uint32_t *offsets,
                 size_t count, uint32_t *pixels)
{
    size_t at;

    if (reader->is_plain)
        read_plain(row, offsets, count, pixels);
    for (at = 0; !reader->is_plain && at < count; at++)
        pixels[at] = convert(reader, number_at(row + offsets[at], reader->form->bytes));
}

static uint32_t blend_channel(uint32_t pixel, uint32_t over, unsigned shift)
{
    uint32_t below = (over >> shift & 255) * (255 - (pixel >> 24));
    uint32_t level = (pixel >> shift & 255) + (below + 127) / 255;

    return (level < 255 ? level : 255) << shift;
}

void pixels_blend(const uint32_t *pixels, size_t count, uint32_t *over)
{
    size_t at;

    for (at = 0; at < count; at++) {
        if (pixels[at] >> 24 == 255)
            over[at] = pixels[at];
        else if (pixels[at] != 0)
            over[at] = blend_channel(pixels[at], over[at], 16)
                       | blend_channel(pixels[at], over[at], 8)
                       | blend_channel(pixels[at], over[at], 0);
    }
}
