/*
 * Shows that the fuzz can fail: linked with --wrap, each call below goes to the archive and then makes the slip whose number
 * the variable SLIP has. A slip that draws a retired kind gives the archive another kind for it. With no such variable nothing
 * is changed. The slips of the reduction are in slips_reducing.c.
 */
#include "slips.h"

#include <stdbool.h>
#include <stdlib.h>
#include <string.h>

#include "badge_dither.h"
#include "table.h"

#define THRESHOLD uint32_t kind, uint32_t x, uint32_t y, float *threshold
#define PICK                                                                                                                 \
    const uint8_t *dark, size_t dark_len, const uint8_t *light, size_t light_len, float ratio, uint32_t kind, uint32_t x,    \
        uint32_t y, uint8_t *chosen, size_t chosen_len

#define SIDES uint32_t width, uint32_t height
#define PAM_SIZE const uint8_t *file, size_t file_len, uint32_t *width, uint32_t *height
#define READ_PAM const uint8_t *file, size_t file_len, uint8_t *pixels, size_t pixels_len, uint32_t *width, uint32_t *height
#define PAM_LENGTH SIDES, uint64_t *length
#define WRITE_PAM SIDES, const uint8_t *pixels, size_t pixels_len, uint8_t *file, size_t file_len

#define LIST                                                                                                                 \
    const uint8_t *reduced, size_t reduced_len, const uint8_t *normalized, size_t normalized_len, const float *oklab,        \
        size_t oklab_len, uint8_t r, uint8_t g, uint8_t b
#define NEAREST LIST, uint32_t *position
#define BRACKET                                                                                                              \
    LIST, uint64_t width, uint8_t *dark, size_t dark_len, uint8_t *light, size_t light_len, float *ratio,                    \
        uint32_t *dark_position, uint32_t *light_position

uint32_t __real_badge_ordered_threshold(THRESHOLD);
uint32_t __wrap_badge_ordered_threshold(THRESHOLD);
uint32_t __real_badge_pick(PICK);
uint32_t __wrap_badge_pick(PICK);
uint32_t __wrap_badge_quantize_pixels(QUANTIZE);
uint32_t __wrap_badge_dither_to_mode(TO_MODE);
uint32_t __real_badge_pam_size(PAM_SIZE);
uint32_t __wrap_badge_pam_size(PAM_SIZE);
uint32_t __real_badge_read_pam(READ_PAM);
uint32_t __wrap_badge_read_pam(READ_PAM);
uint32_t __real_badge_pam_length(PAM_LENGTH);
uint32_t __wrap_badge_pam_length(PAM_LENGTH);
uint32_t __real_badge_write_pam(WRITE_PAM);
uint32_t __wrap_badge_write_pam(WRITE_PAM);
uint32_t __real_badge_nearest(NEAREST);
uint32_t __wrap_badge_nearest(NEAREST);
uint32_t __real_badge_ordered_bracket(BRACKET);
uint32_t __wrap_badge_ordered_bracket(BRACKET);

int slip(void)
{
    static int number = -1;
    if (number < 0)
        number = getenv("SLIP") != NULL ? atoi(getenv("SLIP")) : 0;
    return number;
}

/* What is read is kept, since a checker may pass over a read whose value is not used. */
static volatile uint8_t kept;

void read_byte(const uint8_t *at)
{
    kept = *at;
}

void write_again(const uint8_t *at)
{
    volatile uint8_t *byte = (volatile uint8_t *)(uintptr_t)at;
    *byte = *byte;
}

static void write_cell_again(int16_t *at)
{
    volatile int16_t *cell = at;
    *cell = *cell;
}

/* Reads four bytes, as many as a float has, where a cell is. */
static void read_wide(const int16_t *at)
{
    for (size_t i = 0; i < 4; i++)
        read_byte((const uint8_t *)at + i);
}

/* The last cell as it is lent, 0 where there is none. */
static int16_t last_of(const int16_t *cells, size_t cells_len)
{
    return cells_len != 0 ? cells[cells_len - 1] : 0;
}

/* The last entry of a list that is the same as entry k, each of so many bytes. */
static size_t last_twin(const void *list, size_t bytes, size_t entries, size_t k)
{
    const uint8_t *at = list;
    size_t last = k;
    for (size_t i = k + 1; i < entries; i++)
        if (memcmp(at + bytes * i, at + bytes * k, bytes) == 0)
            last = i;
    return last;
}

/* The kind that the archive is given: another one for a retired kind, where the slip has this number. */
static uint32_t drawn_as(uint32_t kind, int number, uint32_t retired, uint32_t other)
{
    return slip() == number && kind == retired ? other : kind;
}

/* How many cells the archive is told. The slips with these numbers take cells where a kind has none, and as many as the cells
 * should have bytes. */
static size_t told(uint32_t kind, size_t pixels, size_t cells_len, int none, int bytes)
{
    if (slip() == none && !is_diffusion(kind))
        return 0;
    return slip() == bytes && cells_len == 6 * pixels ? cells_len / 2 : cells_len;
}

uint32_t __wrap_badge_ordered_threshold(THRESHOLD)
{
    uint32_t given = drawn_as(kind, 39, BADGE_STIPPLE_V, BADGE_LINE_V); /* kind 5 given to another */
    uint32_t number = __real_badge_ordered_threshold(given, x, y, threshold);
    bool retired = number == BADGE_REFUSED_RETIRED_KIND;
    switch (slip()) {
    case 40: if (retired) number = BADGE_REFUSED_NO_MATRIX; break; /* 9 for 15 */
    case 41: if (retired) *threshold = 0.5f; break;                /* writes behind a pointer where it refuses */
    default: break;
    }
    return number;
}

uint32_t __wrap_badge_pick(PICK)
{
    uint32_t given = drawn_as(kind, 42, BADGE_STIPPLE_H, BADGE_LINE_H); /* kind 6 still drawn */
    uint32_t number = __real_badge_pick(dark, dark_len, light, light_len, ratio, given, x, y, chosen, chosen_len);
    bool retired = number == BADGE_REFUSED_RETIRED_KIND, length = dark_len != 4 || light_len != 4 || chosen_len != 4;
    switch (slip()) {
    case 43: if (retired) number = BADGE_REFUSED_KIND_OR_SHIFT; break;    /* 1 for 15 */
    case 44: if (retired && length) number = BADGE_REFUSED_LENGTH; break; /* 3 before 15 */
    default: break;
    }
    return number;
}

uint32_t __wrap_badge_quantize_pixels(QUANTIZE)
{
    uint32_t given = drawn_as(kind, 45, BADGE_STIPPLE_H, BADGE_LINE_H); /* kind 6 still drawn */
    int16_t lent = last_of(cells, cells_len);
    uint32_t number = reducing_quantize_pixels(shift, reducing, given, width, height, reduction, reduction_len, scale,
                                               scale_len, palette, palette_len, pixels, pixels_len, opaque, opaque_len,
                                               indices, indices_len, out, out_len, cells,
                                               told(kind, indices_len, cells_len, 60, 61));
    bool accepted = number == BADGE_ACCEPTED, length = number == BADGE_REFUSED_LENGTH;
    bool retired = number == BADGE_REFUSED_RETIRED_KIND, pairing = pairing_wrong(shift, reducing);
    switch (slip()) {
    case 1: if (pixels_len) read_byte(pixels + pixels_len); break; /* reads after a buffer */
    case 2: if (palette_len) read_byte(palette - 1); break;        /* reads before one */
    case 3: if (out_len) write_again(out + out_len); break;        /* writes after one */
    case 4: if (accepted) write_again(reduction); break;           /* writes to an input */
    case 5: if (length && out_len) out[0] ^= 1; break;             /* changes a buffer where it refuses */
    case 6: if (length) number = BADGE_REFUSED_ENTRIES; break;     /* another number */
    case 7: if (accepted && cells_len) cells[0] = 4081; break;     /* a cell beyond its bound */
    case 8: if (accepted && indices_len) indices[indices_len - 1] ^= 1; break;
    case 33: /* a later twin of the palette */
        if (accepted && indices_len) indices[0] = (uint8_t)last_twin(palette, 4, palette_len / 4, indices[0]);
        break;
    case 46: if (is_retired(kind) && pairing) number = BADGE_REFUSED_RETIRED_KIND; break;  /* 15 before 1 */
    case 47: if (retired && size_wrong(width, height)) number = BADGE_REFUSED_SIZE; break; /* 2 before 15 */
    case 48: if (retired && out_len) out[0] ^= 1; break; /* changes a buffer where it refuses */
    case 54: if (accepted && cells_len) cells[cells_len - 1] = INT16_MIN; break;    /* the one that has no opposite */
    case 55: if (accepted && cells_len) cells[cells_len - 1] += lent; break;        /* begins with what was lent */
    case 56: if (accepted && cells_len) write_cell_again(cells + cells_len); break; /* writes after the cells */
    case 57: if (accepted && cells_len) read_wide(cells + cells_len - 1); break;    /* takes a cell for a float */
    case 58: if (accepted && !is_diffusion(kind)) write_cell_again(cells); break;   /* writes one where there is none */
    case 59: if (length && cells_len) cells[0] ^= 1; break; /* changes cells where it refuses */
    default: break;
    }
    return number;
}

uint32_t __wrap_badge_dither_to_mode(TO_MODE)
{
    uint32_t given = drawn_as(kind, 49, BADGE_STIPPLE_V, BADGE_LINE_V); /* kind 5 given to another */
    int16_t lent = last_of(cells, cells_len);
    uint32_t number = reducing_dither_to_mode(
        shift, reducing, given, width, height, origin_x, origin_y, tile_width, tile_height, limit, has_zero, zero_r, zero_g,
        zero_b, zero_a, reduction, reduction_len, scale, scale_len, pixels, pixels_len, opaque, opaque_len, places,
        places_len, oklab, oklab_len, out, out_len, cells, told(kind, out_len / 4, cells_len, 67, 68), count, tile);
    bool accepted = number == BADGE_ACCEPTED, over = number == BADGE_REFUSED_TILE_OVER;
    bool many = number == BADGE_REFUSED_TOO_MANY_CANDIDATES, retired = number == BADGE_REFUSED_RETIRED_KIND;
    bool origin = origin_wrong(origin_x, width) || origin_wrong(origin_y, height);
    bool tiles = tile_wrong(tile_width, tile_height, limit), pairing = pairing_wrong(shift, reducing);
    switch (slip()) {
    case 9: if (many && places_len) places[places_len - 1] = 1; break;  /* does not clear all that it has to */
    case 10: if (over && cells_len) cells[cells_len - 1] = 1; break;    /* nor here */
    case 11: if (over && places_len) places[places_len - 1] ^= 1; break;
    case 12: if (many) *count = 0; break;                               /* writes behind a pointer where it refuses */
    case 13: if (accepted) *tile ^= 1; break;
    case 14: if (over) *tile = 0xffffffffu; break;                      /* invents a tile */
    case 15: if (over) number = 1000; break;                            /* a number that there is not */
    case 16: if (accepted && oklab_len) oklab[oklab_len - 1] += 1.0f; break;
    case 50: if (is_retired(kind) && pairing) number = BADGE_REFUSED_RETIRED_KIND; break; /* 15 before 1 */
    case 51: if (retired && origin) number = BADGE_REFUSED_SIZE; break;                   /* 2 before 15 */
    case 52: if (retired && tiles) number = BADGE_REFUSED_TILES; break;                   /* 5 before 15 */
    case 53: if (retired) *count = 0; break; /* writes behind a pointer where it refuses */
    case 62: if (accepted && cells_len) cells[cells_len - 1] = -4081; break;
    case 63: if (accepted && cells_len) write_cell_again(cells - 1); break; /* writes before the cells */
    case 64: if (over && cells_len) cells[cells_len - 1] = lent; break;     /* clears as many bytes as there are cells */
    case 65: if (over && cells_len) memset(cells, 0, 4 * cells_len); break; /* clears as many bytes as floats have */
    case 66: if (many && cells_len) memset(cells, 0, 2 * cells_len); break; /* clears more than it has to */
    default: break;
    }
    return number;
}

/* Whether a file has a number of five digits or more, but for zeros in front. */
static bool has_large_number(const uint8_t *file, size_t file_len)
{
    size_t digits = 0;
    for (size_t i = 0; i < file_len && digits < 5; i++)
        digits = file[i] < '0' || file[i] > '9' ? 0 : digits + (digits != 0 || file[i] != '0');
    return digits == 5;
}

uint32_t __wrap_badge_pam_size(PAM_SIZE)
{
    uint32_t number = __real_badge_pam_size(file, file_len, width, height), first = *width;
    bool accepted = number == BADGE_ACCEPTED, header = number == BADGE_REFUSED_PAM_HEADER;
    switch (slip()) {
    case 17: if (header && has_large_number(file, file_len)) number = BADGE_REFUSED_SIZE; break; /* 2 before 10 */
    case 18: if (number == BADGE_REFUSED_SIZE) number = BADGE_REFUSED_PAM_PIXELS; break;         /* 11 before 2 */
    case 19: if (header) *height = 0; break; /* writes behind a pointer where it refuses */
    case 20: if (accepted) *width = *height, *height = first; break;
    default: break;
    }
    return number;
}

uint32_t __wrap_badge_read_pam(READ_PAM)
{
    uint32_t number = __real_badge_read_pam(file, file_len, pixels, pixels_len, width, height);
    bool accepted = number == BADGE_ACCEPTED, bytes = number == BADGE_REFUSED_PAM_PIXELS;
    bool rgb = accepted && pixels[pixels_len - 1] != file[file_len - 1]; /* the file ends with a blue, and not with an alpha */
    switch (slip()) {
    case 21: if (rgb) pixels[pixels_len - 1] = 0; break;             /* alpha 0 */
    case 22: if (bytes && pixels_len) pixels[0] ^= 1; break;         /* changes a buffer where it refuses */
    case 23: if (bytes) number = BADGE_REFUSED_LENGTH; break;        /* 3 for 11 */
    case 24: /* takes a file with a byte left over */
        if (bytes) number = __real_badge_read_pam(file, file_len - 1, pixels, pixels_len, width, height);
        break;
    case 25: if (file_len) read_byte(file + file_len); break;        /* reads after the file */
    case 26: if (number == BADGE_REFUSED_LENGTH) *width ^= 1; break; /* writes behind a pointer where it refuses */
    default: break;
    }
    return number;
}

uint32_t __wrap_badge_pam_length(PAM_LENGTH)
{
    uint32_t number = __real_badge_pam_length(width, height, length);
    bool header = number == BADGE_REFUSED_PAM_HEADER;
    switch (slip()) {
    case 27: if (header && width + height > 4096) number = BADGE_REFUSED_SIZE; break;      /* 2 before 10 */
    case 28: if (number == BADGE_ACCEPTED && width > 9 && height > 9) *length -= 1; break; /* a digit too few */
    default: break;
    }
    return number;
}

uint32_t __wrap_badge_write_pam(WRITE_PAM)
{
    static const char lines[] = "MAXVAL 255\nDEPTH 4\nTUPLTYPE RGB_ALPHA\nENDHDR\n"; /* two of them the other way round */
    uint32_t number = __real_badge_write_pam(width, height, pixels, pixels_len, file, file_len);
    bool accepted = number == BADGE_ACCEPTED;
    switch (slip()) {
    case 29: if (accepted) memcpy(file + file_len - pixels_len - strlen(lines), lines, strlen(lines)); break;
    case 30: if (accepted) file[file_len - 1] ^= 1; break;
    case 31: if (number == BADGE_REFUSED_LENGTH && file_len) file[0] = 'P'; break; /* writes where it refuses */
    case 32: if (accepted) write_again(file + file_len); break;                    /* writes after the file */
    default: break;
    }
    return number;
}

uint32_t __wrap_badge_nearest(NEAREST)
{
    uint32_t number = __real_badge_nearest(reduced, reduced_len, normalized, normalized_len, oklab, oklab_len, r, g, b,
                                           position);
    if (slip() == 34 && number == BADGE_ACCEPTED) /* a later twin */
        *position = (uint32_t)last_twin(oklab, 3 * sizeof *oklab, oklab_len / 3, *position);
    return number;
}

uint32_t __wrap_badge_ordered_bracket(BRACKET)
{
    uint32_t number = __real_badge_ordered_bracket(reduced, reduced_len, normalized, normalized_len, oklab, oklab_len, r, g,
                                                   b, width, dark, dark_len, light, light_len, ratio, dark_position,
                                                   light_position);
    bool accepted = number == BADGE_ACCEPTED, twins = accepted && memcmp(dark, light, 4) == 0;
    uint32_t first = *dark_position;
    switch (slip()) {
    case 35: if (number == BADGE_REFUSED_LENGTH) *light_position ^= 1; break; /* writes behind a pointer where it refuses */
    case 36: if (accepted) *dark_position = *light_position; break;           /* the position of the other */
    case 37: if (twins) *dark_position = *light_position, *light_position = first; break;
    case 38: if (accepted) *light_position = (uint32_t)(reduced_len / 4); break; /* outside the list */
    default: break;
    }
    return number;
}
