/*
 * What the files of slips share: which slip is made, and the arguments of the calls on pictures. Those go first through
 * slips_reducing.c, which has the slips of the reduction, and then through slips.c.
 */
#ifndef SLIPS_H
#define SLIPS_H

#include <stddef.h>
#include <stdint.h>

/* The number that the variable SLIP has, 0 where there is none. */
int slip(void);

/* Reads a byte, or writes it as it is: only where it lies is a slip. */
void read_byte(const uint8_t *at);
void write_again(const uint8_t *at);

#define TABLES const uint8_t *reduction, size_t reduction_len, const uint8_t *scale, size_t scale_len
#define PIXELS const uint8_t *pixels, size_t pixels_len, const uint8_t *opaque, size_t opaque_len
#define ROOMS uint8_t *places, size_t places_len, float *oklab, size_t oklab_len
#define DRAWN uint8_t *out, size_t out_len, int16_t *cells, size_t cells_len

#define CANDIDATES                                                                                                           \
    uint32_t shift, uint32_t reducing, uint32_t width, uint32_t height, TABLES, PIXELS, ROOMS, uint32_t *count
#define SIZES uint32_t shift, uint32_t reducing, uint32_t kind, uint32_t width, uint32_t height
#define QUANTIZE                                                                                                             \
    SIZES, TABLES, const uint8_t *palette, size_t palette_len, PIXELS, uint8_t *indices, size_t indices_len, DRAWN
#define TO_MODE                                                                                                              \
    SIZES, uint32_t origin_x, uint32_t origin_y, uint32_t tile_width, uint32_t tile_height, uint32_t limit,                  \
        uint32_t has_zero, uint8_t zero_r, uint8_t zero_g, uint8_t zero_b, uint8_t zero_a, TABLES, PIXELS, ROOMS, DRAWN,     \
        uint32_t *count, uint32_t *tile

uint32_t reducing_quantize_pixels(QUANTIZE);
uint32_t reducing_dither_to_mode(TO_MODE);

#endif
