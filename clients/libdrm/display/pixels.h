/* The pixels of each format, as 8 bits of each colour and of alpha. */
#ifndef ZIRKOSHE_LIBDRM_PIXELS_H
#define ZIRKOSHE_LIBDRM_PIXELS_H

#include <stdbool.h>
#include <stddef.h>
#include <stdint.h>

enum channel { CHANNEL_BLUE, CHANNEL_GREEN, CHANNEL_RED, CHANNEL_ALPHA, CHANNELS };

/* Where a channel is in a pixel, whose bytes are a number in little-endian order. */
struct bits {
    uint8_t shift, count; /* a format has no channel of 0 bits */
};

struct pixel_form {
    uint32_t format;
    uint8_t bytes; /* of a pixel */
    bool is_half;  /* each channel is a floating-point number */
    struct bits channels[CHANNELS];
};

/* Returns the form of a format that framebuffers may have, or NULL. */
const struct pixel_form *pixel_form_of(uint32_t format);

/* What reads the pixels of a form */
struct pixel_reader {
    const struct pixel_form *form;
    bool is_plain;             /* pixels have the channels of ARGB8888 or XRGB8888 */
    uint8_t *levels[CHANNELS]; /* the level in 8 bits of each value of a channel */
};

/* Prepares a reader; false if there is no memory. Frees what it has. */
bool pixel_reader_begin(struct pixel_reader *reader, const struct pixel_form *form);
void pixel_reader_end(struct pixel_reader *reader);

/* Reads pixels at these offsets of a row, of which there is one at least, into ARGB8888. */
void pixels_read(const struct pixel_reader *reader, const uint8_t *row, const uint32_t *offsets,
                 size_t count, uint32_t *pixels);

/* Draws pixels over others. Their colours are multiplied by alpha already. */
void pixels_blend(const uint32_t *pixels, size_t count, uint32_t *over);

#endif
