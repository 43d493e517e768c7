/*
 * The slips of the reduction: its pairing with the shift, the opaque pixels, and alphas that play no part. See slips.h. A slip
 * that takes too much gives the archive what it takes: another shift or reduction, or the pixels for opaque pixels whose length
 * is wrong.
 */
#include "slips.h"

#include <stdbool.h>
#include <string.h>

#include "badge_dither.h"
#include "table.h"

#define WIDTH uint32_t shift, uint64_t max, uint64_t *width

uint32_t __real_badge_bracket_width(WIDTH);
uint32_t __wrap_badge_bracket_width(WIDTH);
uint32_t __real_badge_candidate_colors_in(CANDIDATES);
uint32_t __wrap_badge_candidate_colors_in(CANDIDATES);
uint32_t __real_badge_quantize_pixels(QUANTIZE);
uint32_t __real_badge_dither_to_mode(TO_MODE);

/* The shift or the reduction that the archive is given: another where the slip with this number takes a pairing too many. */
static uint32_t taken_as(int number, bool pairing, uint32_t own, uint32_t other)
{
    return slip() == number && pairing ? other : own;
}

/* Whether the slip with this number passes over a wrong length of the opaque pixels. */
static bool is_unasked(int number, uint32_t reducing, size_t pixels_len, size_t opaque_len)
{
    return slip() == number && opaque_len != opaque_length(reducing, pixels_len / 4);
}

/* Whether a call was accepted with a first pixel that a reduction takes for opaque, whatever its alpha. */
static bool has_opaque(uint32_t number, uint32_t reducing, size_t pixels_len)
{
    return number == BADGE_ACCEPTED && reducing != BADGE_BY_ALPHA && pixels_len != 0;
}

/* Puts a colour, normalised, into a pixel. */
static void put_color(uint8_t *pixel, const uint8_t *color, const uint8_t *scale)
{
    for (size_t c = 0; c < 4; c++)
        pixel[c] = scale[color[c]];
}

uint32_t __wrap_badge_bracket_width(WIDTH)
{
    uint32_t number = __real_badge_bracket_width(taken_as(69, shift == 7, shift, 6), max, width); /* a shift too many */
    return slip() == 70 && shift == 6 ? BADGE_REFUSED_KIND_OR_SHIFT : number;                     /* one too few */
}

uint32_t __wrap_badge_candidate_colors_in(CANDIDATES)
{
    bool unasked = is_unasked(71, reducing, pixels_len, opaque_len);
    bool pixel = slip() == 72 && opaque_len == pixels_len; /* reduces the pixel in the opaque one's place */
    uint32_t as = taken_as(73, shift == 6 && reducing == BADGE_BY_ALPHA, shift, 5);      /* by alpha with shift 6 */
    uint32_t by = taken_as(74, reducing > BADGE_OPAQUE_COLOR, reducing, BADGE_BY_ALPHA); /* a reduction that there is not */
    by = taken_as(75, shift == 6 && reducing == BADGE_GREY, by, BADGE_OPAQUE_COLOR);     /* grey channel by channel */
    uint32_t number = __real_badge_candidate_colors_in(
        as, by, width, height, reduction, reduction_len, scale, scale_len, pixels, pixels_len,
        unasked || pixel ? pixels : opaque, unasked ? opaque_length(reducing, pixels_len / 4) : opaque_len, places, places_len,
        oklab, oklab_len, count);
    if (slip() == 76 && opaque_len) /* reads after a buffer */
        read_byte(opaque + opaque_len);
    return number;
}

uint32_t reducing_quantize_pixels(QUANTIZE)
{
    bool unasked = is_unasked(77, reducing, pixels_len, opaque_len);
    uint32_t as = taken_as(78, shift == 4 && reducing == BADGE_GREY, shift, 5); /* grey with shift 4 */
    uint32_t number = __real_badge_quantize_pixels(
        as, reducing, kind, width, height, reduction, reduction_len, scale, scale_len, palette, palette_len, pixels,
        pixels_len, unasked ? pixels : opaque, unasked ? opaque_length(reducing, pixels_len / 4) : opaque_len, indices,
        indices_len, out, out_len, cells, cells_len);
    bool first = has_opaque(number, reducing, pixels_len);
    switch (slip()) {
    case 79: /* 15 before 1 */
        if (is_retired(kind) && reducing > BADGE_OPAQUE_COLOR) number = BADGE_REFUSED_RETIRED_KIND;
        break;
    case 80: if (first && pixels[3] < 128) indices[0] = 0, memset(out, 0, 4); break;              /* a pixel transparent */
    case 81: if (first && opaque[3] < 128) indices[0] = 0, put_color(out, palette, scale); break; /* reads an alpha */
    case 82: if (first) write_again(opaque + opaque_len - 1); break;                              /* writes to an input */
    case 83: if (number == BADGE_REFUSED_LENGTH && opaque_len) write_again(opaque); break;        /* where it refuses */
    default: break;
    }
    return number;
}

uint32_t reducing_dither_to_mode(TO_MODE)
{
    bool unasked = is_unasked(84, reducing, pixels_len, opaque_len);
    uint32_t as = taken_as(85, shift == 5 && reducing == BADGE_OPAQUE_COLOR, shift, 6); /* opaque colour with shift 5 */
    uint32_t number = __real_badge_dither_to_mode(
        as, reducing, kind, width, height, origin_x, origin_y, tile_width, tile_height, limit, has_zero, zero_r, zero_g,
        zero_b, zero_a, reduction, reduction_len, scale, scale_len, pixels, pixels_len, unasked ? pixels : opaque,
        unasked ? opaque_length(reducing, pixels_len / 4) : opaque_len, places, places_len, oklab, oklab_len, out, out_len,
        cells, cells_len, count, tile);
    bool first = has_opaque(number, reducing, pixels_len);
    switch (slip()) {
    case 86: /* 15 before 1 */
        if (is_retired(kind) && reducing > BADGE_OPAQUE_COLOR) number = BADGE_REFUSED_RETIRED_KIND;
        break;
    case 87: if (first && pixels[3] < 128) memset(out, 0, 4); break;                          /* a pixel transparent */
    case 88: if (first && !has_zero && opaque[3] < 128) put_color(out, places, scale); break; /* reads an alpha */
    case 89: if (first && has_zero) put_color(out, places, scale); break;                     /* draws colour zero */
    case 90: if (opaque_len) read_byte(opaque - 1); break;                                    /* reads before a buffer */
    default: break;
    }
    return number;
}
