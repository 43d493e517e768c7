// One call of the library on one picture, for `emulated` to count: with no words it lists its rows, with a row's number it makes
// the row's call. The pictures are like those of the benchmark's rows, from this file's own generator. An archive of before request
// 5 has the rows that reduce by alpha.
#include <stdbool.h>
#include <stdio.h>
#include <stdlib.h>
#include <string.h>

#include "../include/badge_dither.h"

enum { small = 128, large = 256, most = large * large };
enum call { collecting, dithering, quantizing };
enum picture { smooth, few, noise, kept };
enum mode { snes, gb, ngp, sms };

static const struct {
    uint32_t shift, reducing;
} modes[] = {
    [snes] = {3, BADGE_BY_ALPHA},
    [gb] = {6, BADGE_GREY},
    [ngp] = {5, BADGE_GREY},
    [sms] = {6, BADGE_OPAQUE_COLOR},
};

static const struct {
    const char *name;
    enum mode mode;
    enum call call;
    enum picture picture;
    uint32_t kind;
} rows[] = {
    {"candidate_colors_in 128x128 smooth", snes, collecting, smooth, 0},
    {"candidate_colors_in 128x128 of 12 colours", snes, collecting, few, 0},
    {"candidate_colors_in 128x128 noise", snes, collecting, noise, 0},
    {"candidate_colors_in 256x256 with every byte kept", snes, collecting, kept, 0},
    {"quantize_pixels 128x128 noise, 16 entries, Off", snes, quantizing, noise, BADGE_OFF},
    {"quantize_pixels 128x128 noise, 16 entries, Bayer 8x8", snes, quantizing, noise, BADGE_BAYER_8X8},
    {"quantize_pixels 128x128 noise, 16 entries, Atkinson", snes, quantizing, noise, BADGE_ATKINSON},
    {"quantize_pixels 128x128 noise, 16 entries, Floyd-Steinberg", snes, quantizing, noise, BADGE_FLOYD_STEINBERG},
    {"quantize_pixels 128x128 of 12 colours, 16 entries, Off", snes, quantizing, few, BADGE_OFF},
    {"quantize_pixels 128x128 of 12 colours, 16 entries, Bayer 8x8", snes, quantizing, few, BADGE_BAYER_8X8},
    {"quantize_pixels 128x128 of 12 colours, 16 entries, Atkinson", snes, quantizing, few, BADGE_ATKINSON},
    {"quantize_pixels 128x128 of 12 colours, 16 entries, Floyd-Steinberg", snes, quantizing, few, BADGE_FLOYD_STEINBERG},
    {"dither_to_mode 128x128 smooth, Off", snes, dithering, smooth, BADGE_OFF},
    {"dither_to_mode 128x128 smooth, Bayer 8x8", snes, dithering, smooth, BADGE_BAYER_8X8},
    {"dither_to_mode 128x128 smooth, Atkinson", snes, dithering, smooth, BADGE_ATKINSON},
    {"dither_to_mode 128x128 smooth, Floyd-Steinberg", snes, dithering, smooth, BADGE_FLOYD_STEINBERG},
    {"dither_to_mode 128x128 of 12 colours, Off", snes, dithering, few, BADGE_OFF},
    {"dither_to_mode 128x128 of 12 colours, Bayer 8x8", snes, dithering, few, BADGE_BAYER_8X8},
    {"dither_to_mode 128x128 of 12 colours, Atkinson", snes, dithering, few, BADGE_ATKINSON},
    {"dither_to_mode 128x128 of 12 colours, Floyd-Steinberg", snes, dithering, few, BADGE_FLOYD_STEINBERG},
    {"candidate_colors_in 128x128 noise to Gb", gb, collecting, noise, 0},
    {"candidate_colors_in 128x128 noise to Sms", sms, collecting, noise, 0},
    {"quantize_pixels 128x128 noise to Gb, 4 entries, Off", gb, quantizing, noise, BADGE_OFF},
    {"quantize_pixels 128x128 noise to Gb, 4 entries, Bayer 8x8", gb, quantizing, noise, BADGE_BAYER_8X8},
    {"quantize_pixels 128x128 noise to Gb, 4 entries, Floyd-Steinberg", gb, quantizing, noise, BADGE_FLOYD_STEINBERG},
    {"dither_to_mode 128x128 noise to Gb, Floyd-Steinberg", gb, dithering, noise, BADGE_FLOYD_STEINBERG},
    {"dither_to_mode 128x128 noise to Ngp, Off", ngp, dithering, noise, BADGE_OFF},
    {"dither_to_mode 128x128 noise to Ngp, Bayer 8x8", ngp, dithering, noise, BADGE_BAYER_8X8},
    {"dither_to_mode 128x128 noise to Ngp, Floyd-Steinberg", ngp, dithering, noise, BADGE_FLOYD_STEINBERG},
    {"dither_to_mode 128x128 noise to Sms, Off", sms, dithering, noise, BADGE_OFF},
    {"dither_to_mode 128x128 noise to Sms, Bayer 8x8", sms, dithering, noise, BADGE_BAYER_8X8},
    {"dither_to_mode 128x128 noise to Sms, Floyd-Steinberg", sms, dithering, noise, BADGE_FLOYD_STEINBERG},
};
enum { row_count = sizeof rows / sizeof *rows };

static uint8_t reduction[256], scale[256], pixels[4 * most], palette[4 * 16];
static uint8_t places[4 * most], indices[most], out[4 * most];
static float oklab[3 * most];
// With room for as many floats: an archive of before request 11 takes the same length for that of floats.
static _Alignas(float) int16_t cells[2 * 3 * most];

static uint8_t random_byte(void) {
    static uint32_t state = 4;
    state = state * 1664525 + 1013904223;
    return state >> 24;
}

// A value's bits, repeated until eight are full.
static uint8_t scale_up(uint32_t value, uint32_t shift) {
    uint32_t bits = 8 - shift, scaled = 0;
    for (int left = shift; left > -(int)bits; left -= bits)
        scaled |= left >= 0 ? value << left : value >> -left;
    return scaled;
}

// Tables, and as many entries as a mode has greys, or sixteen random ones.
static badge_length make_tables(enum picture picture, enum mode mode) {
    uint32_t shift = modes[mode].shift;
    bool greys = modes[mode].reducing == BADGE_GREY;
    for (int i = 0; i < 256; i++) {
        reduction[i] = picture == kept ? i : i >> shift;
        scale[i] = picture == kept ? i : scale_up(i & 255 >> shift, shift);
    }
    int entries = greys ? 256 >> shift : 16;
    for (int i = 0; i < entries; i++)
        for (int c = 0; c < 4; c++)
            palette[4 * i + c] = c == 3 ? 255 : greys ? i : random_byte() >> shift;
    return entries;
}

static void make_pixels(enum picture picture, uint32_t side) {
    uint8_t pool[12][3];
    for (int i = 0; i < 36; i++)
        pool[i / 3][i % 3] = random_byte();
    for (uint32_t i = 0; i < side * side; i++) {
        uint32_t x = i % side, y = i / side, spread = i * 0x9e3779; // an odd factor: no colour twice
        const uint8_t *one = pool[random_byte() % 12];
        const uint8_t colors[4][3] = {
            [smooth] = {64 + x, 64 + y, 96 + (x + y) / 4},
            [few] = {one[0], one[1], one[2]},
            [noise] = {random_byte(), random_byte(), random_byte()},
            [kept] = {spread >> 16, spread >> 8, spread},
        };
        memcpy(pixels + 4 * i, colors[picture], 3);
        pixels[4 * i + 3] = 255;
    }
}

// The calls on pictures before request 5, which named no reduction and were lent no opaque pixels. Shift 6 has a width since then.
// The pointers are volatile, so that the compiler does not hold the calls to the header.
typedef const uint8_t *bytes;
typedef badge_length length;
typedef uint32_t collect_by_alpha(uint32_t, uint32_t, uint32_t, bytes, length, bytes, length, bytes, length, uint8_t *, length,
                                  float *, length, uint32_t *);
typedef uint32_t quantize_by_alpha(uint32_t, uint32_t, uint32_t, uint32_t, bytes, length, bytes, length, bytes, length, bytes,
                                   length, uint8_t *, length, uint8_t *, length, int16_t *, length);
typedef uint32_t dither_by_alpha(uint32_t, uint32_t, uint32_t, uint32_t, uint32_t, uint32_t, uint32_t, uint32_t, uint32_t,
                                 uint32_t, uint8_t, uint8_t, uint8_t, uint8_t, bytes, length, bytes, length, bytes, length,
                                 uint8_t *, length, float *, length, uint8_t *, length, int16_t *, length, uint32_t *, uint32_t *);

static void (*volatile const calls[])(void) = {
    [collecting] = (void (*)(void))badge_candidate_colors_in,
    [dithering] = (void (*)(void))badge_dither_to_mode,
    [quantizing] = (void (*)(void))badge_quantize_pixels,
};

static bool names_reductions(void) {
    uint64_t width;
    return badge_bracket_width(6, 16, &width) == BADGE_ACCEPTED;
}

static uint32_t found, tile;

static uint32_t call_by_alpha(enum call call, uint32_t side, uint32_t kind, length n, length entries, length lent) {
    if (call == collecting)
        return ((collect_by_alpha *)calls[call])(3, side, side, reduction, 256, scale, 256, pixels, 4 * n, places, 4 * most,
                                                 oklab, 3 * most, &found);
    if (call == quantizing)
        return ((quantize_by_alpha *)calls[call])(3, kind, side, side, reduction, 256, scale, 256, palette, 4 * entries, pixels,
                                                  4 * n, indices, n, out, 4 * n, cells, lent);
    return ((dither_by_alpha *)calls[call])(3, kind, side, side, 0, 0, 8, 8, 256, 0, 0, 0, 0, 0, reduction, 256, scale, 256,
                                            pixels, 4 * n, places, 4 * most, oklab, 3 * most, out, 4 * n, cells, lent, &found,
                                            &tile);
}

// Every pixel is opaque, so that the opaque pixels are the pixels.
static uint32_t make_call(enum call call, enum mode mode, uint32_t side, uint32_t kind, length entries) {
    bool diffuses = kind == BADGE_ATKINSON || kind == BADGE_FLOYD_STEINBERG;
    uint32_t shift = modes[mode].shift, reducing = modes[mode].reducing;
    length n = (length)side * side, lent = diffuses ? 3 * n : 0, opaque = reducing == BADGE_BY_ALPHA ? 0 : 4 * n;
    if (!names_reductions())
        return call_by_alpha(call, side, kind, n, entries, lent);
    if (call == collecting)
        return badge_candidate_colors_in(shift, reducing, side, side, reduction, 256, scale, 256, pixels, 4 * n, pixels, opaque,
                                         places, 4 * most, oklab, 3 * most, &found);
    if (call == quantizing)
        return badge_quantize_pixels(shift, reducing, kind, side, side, reduction, 256, scale, 256, palette, 4 * entries, pixels,
                                     4 * n, pixels, opaque, indices, n, out, 4 * n, cells, lent);
    return badge_dither_to_mode(shift, reducing, kind, side, side, 0, 0, 8, 8, 256, 0, 0, 0, 0, 0, reduction, 256, scale, 256,
                                pixels, 4 * n, pixels, opaque, places, 4 * most, oklab, 3 * most, out, 4 * n, cells, lent,
                                &found, &tile);
}

int main(int words, char **word) {
    for (int i = 0; words == 1 && i < row_count; i++)
        if (rows[i].mode == snes || names_reductions())
            puts(rows[i].name);
    if (words == 1)
        return 0;
    int row = atoi(word[1]);
    if (row < 0 || row >= row_count)
        return 2;
    uint32_t side = rows[row].picture == kept ? large : small;
    length entries = make_tables(rows[row].picture, rows[row].mode);
    make_pixels(rows[row].picture, side);
    return make_call(rows[row].call, rows[row].mode, side, rows[row].kind, entries) ? 1 : 0;
}
