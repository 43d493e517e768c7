/*
 * A test of the header alone: it is included first and twice, every constant has its number, and every function is named with
 * the type that the archive has, so that a declaration that does not fit is an error. Then the one thing that can be asked from
 * C and not from the Rust binding: numbers that no reduction has. Compiled both as C11 and as C++17.
 */
#include "badge_dither.h"
#include "badge_dither.h"

#include <assert.h>

static_assert(BADGE_OFF == 0 && BADGE_BAYER_2X2 == 1 && BADGE_BAYER_4X4 == 2 && BADGE_BAYER_8X8 == 3 && BADGE_CHECKER == 4 &&
                  BADGE_STIPPLE_V == 5 && BADGE_STIPPLE_H == 6 && BADGE_LINE_V == 7 && BADGE_LINE_H == 8 &&
                  BADGE_ATKINSON == 9 && BADGE_FLOYD_STEINBERG == 10,
              "the kinds in the original's order, the retired ones too");

static_assert(BADGE_BY_ALPHA == 0 && BADGE_GREY == 1 && BADGE_OPAQUE_COLOR == 2, "the reductions");

static_assert(BADGE_ACCEPTED == 0 && BADGE_REFUSED_KIND_OR_SHIFT == 1 && BADGE_REFUSED_SIZE == 2 &&
                  BADGE_REFUSED_LENGTH == 3 && BADGE_REFUSED_ENTRIES == 4 && BADGE_REFUSED_TILES == 5 &&
                  BADGE_REFUSED_COMPONENT == 6 && BADGE_REFUSED_TOO_MANY_CANDIDATES == 7 && BADGE_REFUSED_TILE_OVER == 8 &&
                  BADGE_REFUSED_NO_MATRIX == 9 && BADGE_REFUSED_PAM_HEADER == 10 && BADGE_REFUSED_PAM_PIXELS == 11 &&
                  BADGE_REFUSED_RETIRED_KIND == 15,
              "the numbers of the scope document's table, and of the requests after it");

static_assert(sizeof(badge_length) == 8, "a length is 64 bits, where pointers are smaller too");

typedef const uint8_t *bytes;
typedef const float *floats;
typedef badge_length length;

/* Whether all calls on pictures give that answer to a picture without pixels. */
static int answered(uint32_t shift, uint32_t reducing, uint32_t answer)
{
    static const uint8_t table[256] = {0};
    uint32_t count = 0, tile = 0;
    return badge_candidate_colors_in(shift, reducing, 0, 0, table, 256, table, 256, NULL, 0, NULL, 0, NULL, 0, NULL, 0,
                                     &count) == answer &&
           badge_quantize_pixels(shift, reducing, BADGE_OFF, 0, 0, table, 256, table, 256, table, 4, NULL, 0, NULL, 0, NULL, 0,
                                 NULL, 0, NULL, 0) == answer &&
           badge_dither_to_mode(shift, reducing, BADGE_OFF, 0, 0, 0, 0, 8, 8, 16, 0, 0, 0, 0, 0, table, 256, table, 256,
                                NULL, 0, NULL, 0, NULL, 0, NULL, 0, NULL, 0, NULL, 0, &count, &tile) == answer;
}

/* The three reductions are taken, and no other number is: not one that is a reduction's if it is cut to a byte either. */
static int reductions_are_told(void)
{
    static const uint32_t others[] = {3, 4, 256, 257, 258, 65536, 65538, UINT32_MAX};
    int right = answered(5, BADGE_BY_ALPHA, BADGE_ACCEPTED) && answered(5, BADGE_GREY, BADGE_ACCEPTED) &&
                answered(6, BADGE_OPAQUE_COLOR, BADGE_ACCEPTED);
    for (size_t i = 0; i < sizeof others / sizeof others[0]; i++)
        right = right && answered(5, others[i], BADGE_REFUSED_KIND_OR_SHIFT) &&
                answered(6, others[i], BADGE_REFUSED_KIND_OR_SHIFT);
    return right;
}

int main(void)
{
    void (*to_oklab)(uint8_t, uint8_t, uint8_t, float *, float *, float *) = badge_to_oklab;
    uint32_t (*sqdist)(float, float, float, float, float, float, float *) = badge_oklab_sqdist;
    uint32_t (*threshold)(uint32_t, uint32_t, uint32_t, float *) = badge_ordered_threshold;
    uint32_t (*width)(uint32_t, uint64_t, uint64_t *) = badge_bracket_width;
    float (*lerp)(uint8_t, uint8_t, uint8_t, uint8_t, uint8_t, uint8_t, uint8_t, uint8_t, uint8_t, uint32_t) = badge_lerp;
    uint32_t (*nearest)(bytes, length, bytes, length, floats, length, uint8_t, uint8_t, uint8_t, uint32_t *) = badge_nearest;
    uint32_t (*nearest_two)(bytes, length, bytes, length, floats, length, uint8_t, uint8_t, uint8_t, uint64_t, uint32_t *,
                            uint32_t *) = badge_nearest_two;
    uint32_t (*bracket)(bytes, length, bytes, length, floats, length, uint8_t, uint8_t, uint8_t, uint64_t, uint8_t *, length,
                        uint8_t *, length, float *, uint32_t *, uint32_t *) = badge_ordered_bracket;
    uint32_t (*pick)(bytes, length, bytes, length, float, uint32_t, uint32_t, uint32_t, uint8_t *, length) = badge_pick;
    uint32_t (*candidates)(uint32_t, uint32_t, uint32_t, uint32_t, bytes, length, bytes, length, bytes, length, bytes, length,
                           uint8_t *, length, float *, length, uint32_t *) = badge_candidate_colors_in;
    uint32_t (*quantize)(uint32_t, uint32_t, uint32_t, uint32_t, uint32_t, bytes, length, bytes, length, bytes, length,
                         bytes, length, bytes, length, uint8_t *, length, uint8_t *, length,
                         int16_t *, length) = badge_quantize_pixels;
    uint32_t (*to_mode)(uint32_t, uint32_t, uint32_t, uint32_t, uint32_t, uint32_t, uint32_t, uint32_t, uint32_t, uint32_t,
                        uint32_t, uint8_t, uint8_t, uint8_t, uint8_t, bytes, length, bytes, length, bytes, length,
                        bytes, length, uint8_t *, length, float *, length, uint8_t *, length, int16_t *, length,
                        uint32_t *, uint32_t *) = badge_dither_to_mode;
    uint32_t (*pam_size)(bytes, length, uint32_t *, uint32_t *) = badge_pam_size;
    uint32_t (*read_pam)(bytes, length, uint8_t *, length, uint32_t *, uint32_t *) = badge_read_pam;
    uint32_t (*pam_length)(uint32_t, uint32_t, uint64_t *) = badge_pam_length;
    uint32_t (*write_pam)(uint32_t, uint32_t, bytes, length, uint8_t *, length) = badge_write_pam;
    return !(to_oklab && sqdist && threshold && width && lerp && nearest && nearest_two && bracket && pick && candidates &&
             quantize && to_mode && pam_size && read_pam && pam_length && write_pam && reductions_are_told());
}
