/*
 * The recorded cases, one function a call of the C interface. A case has what the call is lent and what the original answered,
 * as crates/cases and crates/picture_cases have it. The answer is made the same tokens and compared with the recorded ones,
 * byte for byte; where a call refuses, what is behind a pointer has to be as it was. All answers are kept, too.
 */
#include <string.h>

#include "badge_dither.h"
#include "driver.h"
#include "machine.h"
#include "room.h"

/* ---- comparing */

static bool same;     /* so far */
static size_t next;   /* the recorded token that comes next */
static bool accepted; /* by the number that came first */

static void expect(const void *bytes, size_t len)
{
    Part p = part(next++);
    same = same && p.len == len && memcmp(p.bytes, bytes, len) == 0;
    keep(bytes, len);
}

static void expect_number(uint32_t n)
{
    uint8_t byte = (uint8_t)n;
    same = same && n < 256;
    accepted = n == BADGE_ACCEPTED;
    expect(&byte, 1);
}

static void expect_long(uint64_t n, size_t width)
{
    uint8_t bytes[8];
    for (size_t i = 0; i < width; i++)
        bytes[i] = (uint8_t)(n >> 8 * (width - 1 - i));
    expect(bytes, width);
}

static uint32_t bits_of(float x)
{
    uint32_t bits;
    memcpy(&bits, &x, 4);
    return bits;
}

/* Floats are kept as they lie in memory, and compared in the order of the list. */
static void expect_floats(const float *floats, size_t count)
{
    Part p = part(next++);
    same = same && p.len == 4 * count;
    for (size_t i = 0; same && i < count; i++) {
        uint32_t bits = bits_of(floats[i]);
        const uint8_t bytes[4] = {(uint8_t)(bits >> 24), (uint8_t)(bits >> 16), (uint8_t)(bits >> 8), (uint8_t)bits};
        same = memcmp(p.bytes + 4 * i, bytes, 4) == 0;
    }
    keep(floats, 4 * count);
}

/* So are error cells, of which the list has two bytes each. */
static void expect_cells(const int16_t *values, size_t count)
{
    Part p = part(next++);
    same = same && p.len == 2 * count;
    for (size_t i = 0; same && i < count; i++) {
        const uint8_t bytes[2] = {(uint8_t)((uint16_t)values[i] >> 8), (uint8_t)values[i]};
        same = memcmp(p.bytes + 2 * i, bytes, 2) == 0;
    }
    keep(values, 2 * count);
}

/* What is behind a pointer before a call. A refusal has nothing recorded for it, and leaves it. */
enum { BEFORE = 0x5eed5eed };

static void expect_word(uint32_t n, bool given)
{
    if (given) {
        expect_long(n, 4);
        return;
    }
    same = same && n == BEFORE;
    expect(&n, 0);
}

static float float_before(void)
{
    const uint32_t bits = BEFORE;
    float x;
    memcpy(&x, &bits, 4);
    return x;
}

static void expect_float(float x, bool given)
{
    expect_word(bits_of(x), given);
}

/* A colour that is written on acceptance only. */
static void expect_color(const uint8_t *color)
{
    static const uint8_t before[4] = {0x5e, 0xed, 0x5e, 0xed};
    same = same && (accepted || memcmp(color, before, 4) == 0);
    expect(color, accepted ? 4 : 0);
}

#define COLOR_BEFORE {0x5e, 0xed, 0x5e, 0xed}

/* ---- single values */

/* o: color | lightness a b */
static void to_oklab(void)
{
    float o[3];
    badge_to_oklab(byte_of(0, 0), byte_of(0, 1), byte_of(0, 2), o, o + 1, o + 2);
    expect_floats(o, 3);
}

/* d: two Oklab colours | number distance */
static void oklab_sqdist(void)
{
    float c[6], distance = float_before();
    same = floats_of(0, c, 6) == 6;
    expect_number(badge_oklab_sqdist(c[0], c[1], c[2], c[3], c[4], c[5], &distance));
    expect_float(distance, accepted);
}

/* t: kind x y | number threshold */
static void ordered_threshold(void)
{
    float threshold = float_before();
    expect_number(badge_ordered_threshold(word(0), word(1), word(2), &threshold));
    expect_float(threshold, accepted);
}

/* w: shift max | number width */
static void bracket_width(void)
{
    uint64_t width = BEFORE;
    expect_number(badge_bracket_width(word(0), number(1), &width));
    same = same && (accepted || width == BEFORE);
    expect_long(width, accepted ? 8 : 0);
}

/* l: three colours, clamp | value */
static void lerp(void)
{
    const uint8_t *c = part(0).bytes;
    same = part(0).len == 9;
    float t = badge_lerp(c[0], c[1], c[2], c[3], c[4], c[5], c[6], c[7], c[8], word(1));
    expect_floats(&t, 1);
}

/* p: dark light ratio kind x y | number chosen */
static void pick(void)
{
    uint8_t chosen[4] = COLOR_BEFORE;
    float ratio = 0;
    Part dark = part(0), light = part(1);
    same = floats_of(2, &ratio, 1) == 1;
    expect_number(badge_pick(dark.bytes, dark.len, light.bytes, light.len, ratio, word(3), word(4), word(5), chosen, 4));
    expect_color(chosen);
}

/* ---- lookups */

enum { FLOATS = 4096, CELLS = 4096, BYTES = 4096 };

static float oklab[FLOATS];
static uint8_t places[BYTES], indices[BYTES], out[BYTES];

/* Error cells are lent at an address that is even and no multiple of four, as a caller's may be: an instruction that takes two
 * words or more at a time would end the board's run there. In larger.c they are at a multiple of four. */
static _Alignas(4) int16_t cell_room[1 + CELLS];
static int16_t *const cells = cell_room + 1;

/* Copies floats into a buffer to be lent. */
static size_t lend_floats(size_t k, float *buffer)
{
    size_t count = floats_of(k, buffer, FLOATS);
    same = same && part(k).len == 4 * count;
    return count;
}

/* Copies error cells to where they are lent. */
static size_t lend_cells(size_t k)
{
    size_t count = sixteenths_of(k, cells, CELLS);
    same = same && part(k).len == 2 * count;
    return count;
}

static size_t lend_bytes(size_t k, uint8_t *buffer)
{
    Part p = part(k);
    if (p.len > BYTES) {
        same = false;
        return 0;
    }
    memcpy(buffer, p.bytes, p.len);
    return p.len;
}

#define LIST reduced.bytes, reduced.len, normalized.bytes, normalized.len, oklab, count
#define COLOR byte_of(3, 0), byte_of(3, 1), byte_of(3, 2)

/* n: reduced normalized oklab color | number position */
static void nearest(void)
{
    uint32_t position = BEFORE;
    Part reduced = part(0), normalized = part(1);
    size_t count = lend_floats(2, oklab);
    expect_number(badge_nearest(LIST, COLOR, &position));
    expect_word(position, accepted);
}

/* m: reduced normalized oklab color width | number first second */
static void nearest_two(void)
{
    uint32_t first = BEFORE, second = BEFORE;
    Part reduced = part(0), normalized = part(1);
    size_t count = lend_floats(2, oklab);
    expect_number(badge_nearest_two(LIST, COLOR, number(4), &first, &second));
    expect_word(first, accepted);
    expect_word(second, accepted);
}

/* b: reduced normalized oklab color width | number dark light ratio dark_position light_position */
static void ordered_bracket(void)
{
    uint8_t dark[4] = COLOR_BEFORE, light[4] = COLOR_BEFORE;
    float ratio = float_before();
    uint32_t dark_position = BEFORE, light_position = BEFORE;
    Part reduced = part(0), normalized = part(1);
    size_t count = lend_floats(2, oklab);
    expect_number(
        badge_ordered_bracket(LIST, COLOR, number(4), dark, 4, light, 4, &ratio, &dark_position, &light_position));
    expect_color(dark);
    expect_color(light);
    expect_float(ratio, accepted);
    expect_word(dark_position, accepted);
    expect_word(light_position, accepted);
}

/* ---- pictures; the tables are the first two tokens */

#define BYTES_OF(k) part(k).bytes, part(k).len
#define TABLES BYTES_OF(0), BYTES_OF(1)

/* c: reduction scale shift reducing width height pixels opaque places oklab | number count places oklab */
static void candidate_colors_in(void)
{
    uint32_t count = BEFORE;
    size_t places_len = lend_bytes(8, places), oklab_len = lend_floats(9, oklab);
    expect_number(badge_candidate_colors_in(word(2), word(3), word(4), word(5), TABLES, BYTES_OF(6), BYTES_OF(7), places,
                                            places_len, oklab, oklab_len, &count));
    expect_word(count, accepted);
    expect(places, places_len);
    expect_floats(oklab, oklab_len);
}

/* q: reduction scale shift reducing kind width height palette pixels opaque indices out cells | number indices out cells */
static void quantize_pixels(void)
{
    size_t indices_len = lend_bytes(10, indices), out_len = lend_bytes(11, out), cells_len = lend_cells(12);
    expect_number(badge_quantize_pixels(word(2), word(3), word(4), word(5), word(6), TABLES, BYTES_OF(7), BYTES_OF(8),
                                        BYTES_OF(9), indices, indices_len, out, out_len, cells, cells_len));
    expect(indices, indices_len);
    expect(out, out_len);
    expect_cells(cells, cells_len);
}

/*
 * x: reduction scale shift reducing kind width height origin_x origin_y tile_width tile_height limit has_zero zero pixels
 * opaque places oklab out cells | number count tile places oklab out cells
 */
static void dither_to_mode(void)
{
    uint32_t count = BEFORE, tile = BEFORE;
    size_t places_len = lend_bytes(16, places), oklab_len = lend_floats(17, oklab);
    size_t out_len = lend_bytes(18, out), cells_len = lend_cells(19);
    uint32_t n = badge_dither_to_mode(word(2), word(3), word(4), word(5), word(6), word(7), word(8), word(9), word(10),
                                      word(11), word(12), byte_of(13, 0), byte_of(13, 1), byte_of(13, 2), byte_of(13, 3),
                                      TABLES, BYTES_OF(14), BYTES_OF(15), places, places_len, oklab, oklab_len, out, out_len,
                                      cells, cells_len, &count, &tile);
    expect_number(n);
    expect_word(count, accepted || n == BADGE_REFUSED_TILE_OVER);
    expect_word(tile, n == BADGE_REFUSED_TILE_OVER);
    expect(places, places_len);
    expect_floats(oklab, oklab_len);
    expect(out, out_len);
    expect_cells(cells, cells_len);
}

/* ---- the calls by their letters, with how many tokens a case has, and where the recorded answer begins */

static const struct {
    uint8_t letter, tokens, answer;
    void (*call)(void);
} calls[] = {
    {'o', 2, 1, to_oklab},
    {'d', 3, 1, oklab_sqdist},
    {'t', 5, 3, ordered_threshold},
    {'w', 4, 2, bracket_width},
    {'l', 3, 2, lerp},
    {'p', 8, 6, pick},
    {'n', 6, 4, nearest},
    {'m', 8, 5, nearest_two},
    {'b', 11, 5, ordered_bracket},
    {'c', 14, 10, candidate_colors_in},
    {'q', 17, 13, quantize_pixels},
    {'x', 27, 20, dither_to_mode},
    /* The cases of the lookups over records have the form of the flat ones, which answer them here. */
    {'N', 6, 4, nearest},
    {'M', 8, 5, nearest_two},
    {'B', 11, 5, ordered_bracket},
};

const char *const records_by = ", by the flat lookup";

Verdict replay(uint8_t letter)
{
    for (size_t i = 0; i < sizeof calls / sizeof calls[0]; i++)
        if (calls[i].letter == letter) {
            same = true;
            next = calls[i].answer;
            if (!has_tokens(calls[i].tokens))
                return DIFFERS;
            calls[i].call();
            return same && next == calls[i].tokens ? SAME : DIFFERS;
        }
    return NO_CALL;
}
