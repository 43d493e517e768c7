/*
 * The sixteen calls of the C interface, and what each is measured over: all kinds and shifts, palettes of 256 entries, lists of
 * 65,536, PAM files of both depths, refusals. The calls on pictures have a row for each reduction. See stack.h.
 */
#include "stack.h"

#include <stdio.h>
#include <string.h>

#include "badge_dither.h"
#include "random.h"

enum { ENTRIES = 65536, SIDE = 64, PIXELS = SIDE * SIDE };

uint64_t random_state = 1;

/* ---- what is lent */

static uint8_t reduction[256], scale[256], palette[4 * 256], pixels[4 * PIXELS], opaque[4 * PIXELS];
static uint8_t indices[PIXELS], out[4 * PIXELS], file[4 * PIXELS + 200];
static uint8_t places[4 * ENTRIES], colors[4 * ENTRIES], dark[4], light[4] = {31, 31, 31, 255}, chosen[4];
static float oklab[3 * ENTRIES], list_oklab[3 * ENTRIES];
static int16_t cells[3 * PIXELS];

static struct {
    uint32_t kind, shift, reducing, side, width, height, limit, tile_side, has_zero;
    size_t entries, places, pixels_len, file_len;
    uint8_t r, g, b;
    float component;
} now;

void make_inputs(void)
{
    for (unsigned v = 0; v < 256; v++) {
        reduction[v] = (uint8_t)(v >> 3);
        scale[v] = (uint8_t)(v << 3 | v >> 2);
    }
    for (size_t i = 0; i < sizeof palette; i++)
        palette[i] = i % 4 == 3 ? 255 : (uint8_t)below(32);
    for (size_t i = 0; i < sizeof pixels; i++)
        pixels[i] = i % 4 == 3 && !once_in(8) ? 255 : random_byte();
    memcpy(pixels, (uint8_t[]){0, 0, 0, 255}, 4); /* which reduces alike in every way */
    for (size_t i = 0; i < sizeof pixels; i += 4)
        if (pixels[i + 3] >= 128)
            memcpy(opaque + i, pixels + i, 4);
    for (size_t i = 0; i < sizeof colors; i++)
        colors[i] = random_byte();
    for (size_t i = 0; i < ENTRIES; i++)
        badge_to_oklab(colors[4 * i], colors[4 * i + 1], colors[4 * i + 2], list_oklab + 3 * i, list_oklab + 3 * i + 1,
                       list_oklab + 3 * i + 2);
}

/* ---- the calls, with what is lent */

static uint32_t u32_out, u32_other;
static uint64_t u64_out;
static float f32_out[3];
static volatile float kept;

static void call_to_oklab(void)
{
    badge_to_oklab(now.r, now.g, now.b, f32_out, f32_out + 1, f32_out + 2);
}

static void call_oklab_sqdist(void)
{
    badge_oklab_sqdist(now.component, 1, -1, 0, -1, 1, f32_out);
}

static void call_ordered_threshold(void)
{
    badge_ordered_threshold(now.kind, 5, 3, f32_out);
}

static void call_bracket_width(void)
{
    badge_bracket_width(now.shift, now.limit, &u64_out);
}

static void call_lerp(void)
{
    kept = badge_lerp(0, 0, 0, 200, 100, 50, now.r, now.g, now.b, now.has_zero);
}

static void call_nearest(void)
{
    badge_nearest(colors, 4 * now.entries, colors, 4 * now.entries, list_oklab, 3 * now.entries, now.r, now.g, now.b,
                  &u32_out);
}

static void call_nearest_two(void)
{
    badge_nearest_two(colors, 4 * now.entries, colors, 4 * now.entries, list_oklab, 3 * now.entries, now.r, now.g, now.b, 16,
                      &u32_out, &u32_other);
}

static void call_ordered_bracket(void)
{
    badge_ordered_bracket(colors, 4 * now.entries, colors, 4 * now.entries, list_oklab, 3 * now.entries, now.r, now.g, now.b,
                          16, dark, 4, light, 4, f32_out, &u32_out, &u32_other);
}

static void call_pick(void)
{
    badge_pick(dark, 4, light, 4, now.component, now.kind, 1, 2, chosen, 4);
}

static size_t pixels_now(void)
{
    return (size_t)now.side * now.side;
}

static size_t cells_now(void)
{
    return now.kind >= BADGE_ATKINSON ? 3 * pixels_now() : 0;
}

static size_t opaque_now(void)
{
    return now.reducing != BADGE_BY_ALPHA ? 4 * pixels_now() : 0;
}

static void call_candidate_colors_in(void)
{
    badge_candidate_colors_in(now.shift, now.reducing, now.side, now.side, reduction, 256, scale, 256, pixels,
                              4 * pixels_now(), opaque, opaque_now(), places, 4 * now.places, oklab, 3 * now.places, &u32_out);
}

static void call_quantize_pixels(void)
{
    badge_quantize_pixels(now.shift, now.reducing, now.kind, now.side, now.side, reduction, 256, scale, 256, palette,
                          4 * now.entries, pixels, 4 * pixels_now(), opaque, opaque_now(), indices, pixels_now(), out,
                          4 * pixels_now(), cells, cells_now());
}

static void call_dither_to_mode(void)
{
    badge_dither_to_mode(now.shift, now.reducing, now.kind, now.side, now.side, 3, 5, now.tile_side, now.tile_side, now.limit,
                         now.has_zero, reduction[0], reduction[0], reduction[0], 255, reduction, 256, scale, 256, pixels,
                         4 * pixels_now(), opaque, opaque_now(), places, 4 * now.places, oklab, 3 * now.places, out,
                         4 * pixels_now(), cells, cells_now(), &u32_out, &u32_other);
}

static void call_pam_size(void)
{
    badge_pam_size(file, now.file_len, &u32_out, &u32_other);
}

static void call_read_pam(void)
{
    badge_read_pam(file, now.file_len, out, 4 * pixels_now(), &u32_out, &u32_other);
}

static void call_pam_length(void)
{
    badge_pam_length(now.width, now.height, &u64_out);
}

static void call_write_pam(void)
{
    badge_write_pam(now.width, now.height, pixels, now.pixels_len, file, now.file_len);
}

/* ---- what each is measured over */

static void over_colors(bool by_steps)
{
    static const uint8_t some[][3] = {{0, 0, 0}, {255, 255, 255}, {1, 0, 0}, {0, 0, 255}, {200, 30, 99}, {128, 128, 128}};
    for (size_t i = 0; i < 6; i++) {
        now.r = some[i][0], now.g = some[i][1], now.b = some[i][2];
        now.has_zero = i & 1;
        measure(by_steps);
    }
}

static void over_components(bool by_steps)
{
    static const float some[] = {0.0f, 2.0f, 3.0f};
    for (size_t i = 0; i < 3; i++) {
        now.component = some[i];
        measure(by_steps);
    }
}

/* The shift that goes by steps: one that the reduction takes. */
static uint32_t shift_by_steps(void)
{
    return now.reducing != BADGE_BY_ALPHA ? 6 : 3;
}

/* All shifts and one more, which is refused, as those are that the reduction does not take. */
static void over_shifts(bool by_steps)
{
    uint32_t first = by_steps ? shift_by_steps() : 3, last = by_steps ? first : 7;
    for (now.shift = first; now.shift <= last; now.shift++)
        measure(by_steps);
}

/* All kinds, and one more, which is refused, as the retired ones are. By steps another reduction has every third alone: off, an
 * ordered kind, a retired and a diffusing one. */
static void over_kinds(bool by_steps)
{
    uint32_t next = by_steps && now.reducing != BADGE_BY_ALPHA ? 3 : 1;
    now.side = by_steps ? 3 : SIDE;
    for (now.kind = BADGE_OFF; now.kind <= BADGE_FLOYD_STEINBERG + 1; now.kind += next) {
        now.component = (float)(now.kind % 2);
        over_shifts(by_steps);
    }
}

static void over_lists(bool by_steps)
{
    static const size_t some[] = {0, 1, 2, 40, 300, ENTRIES};
    for (size_t i = 0; i < (by_steps ? 4 : 6); i++) {
        now.entries = some[i];
        over_colors(by_steps);
    }
}

static void over_palettes(bool by_steps)
{
    static const size_t some[] = {256, 1, 0};
    for (size_t i = 0; i < (by_steps ? 1 : 3); i++) {
        now.entries = some[i];
        over_kinds(by_steps);
    }
}

/* Room for all candidates and for too few. */
static void over_rooms(bool by_steps)
{
    now.side = by_steps ? 3 : SIDE;
    for (int few = 0; few < 2; few++) {
        now.places = few ? 2 : ENTRIES;
        over_shifts(by_steps);
    }
}

/* Accepted, with and without colour zero; over the limit; without room; with tiles that cannot be. */
static void over_modes(bool by_steps)
{
    static const struct {
        uint32_t limit, tile_side, has_zero;
        size_t places;
    } some[] = {{256, 8, 0, ENTRIES}, {256, 8, 1, ENTRIES}, {256, 64, 1, ENTRIES}, {8, 8, 0, ENTRIES}, {8, 8, 0, 2},
                {257, 0, 0, ENTRIES}};
    for (size_t i = 0; i < 6; i += by_steps ? 3 : 1) {
        now.limit = some[i].limit, now.tile_side = some[i].tile_side;
        now.has_zero = some[i].has_zero, now.places = some[i].places;
        over_kinds(by_steps);
    }
}

/* The same in another reduction. */
static void reduced_as(uint32_t reducing, void (*over)(bool by_steps), bool by_steps)
{
    now.reducing = reducing;
    over(by_steps);
    now.reducing = BADGE_BY_ALPHA;
}

static void over_rooms_grey(bool by_steps)
{
    reduced_as(BADGE_GREY, over_rooms, by_steps);
}

static void over_rooms_opaque(bool by_steps)
{
    reduced_as(BADGE_OPAQUE_COLOR, over_rooms, by_steps);
}

static void over_palettes_grey(bool by_steps)
{
    reduced_as(BADGE_GREY, over_palettes, by_steps);
}

static void over_palettes_opaque(bool by_steps)
{
    reduced_as(BADGE_OPAQUE_COLOR, over_palettes, by_steps);
}

static void over_modes_grey(bool by_steps)
{
    reduced_as(BADGE_GREY, over_modes, by_steps);
}

static void over_modes_opaque(bool by_steps)
{
    reduced_as(BADGE_OPAQUE_COLOR, over_modes, by_steps);
}

/* Files of both depths, each also with a byte too few and lent pixels of another length, and headers that are refused. */
static void over_files(bool by_steps)
{
    static const struct {
        const char *header;
        size_t depth;
    } some[] = {{"P7\nWIDTH %u\nHEIGHT %u\nDEPTH 4\nMAXVAL 255\nTUPLTYPE RGB_ALPHA\nENDHDR\n", 4},
                {"P7\n# any\nTUPLTYPE RGB\n \t\n\vMAXVAL 000255\r\nHEIGHT %u\nWIDTH %u\n DEPTH  3 \nENDHDR\n", 3},
                {"P7\nWIDTH %u00000000000000000000\nHEIGHT %u\nDEPTH 3\nMAXVAL 255\nTUPLTYPE RGB\nENDHDR\n", 3},
                {"P7\nWIDTH %u %u\nENDHDR\n", 4}};
    for (size_t i = 0; i < 8; i++) {
        now.side = by_steps ? 3 : SIDE;
        int header = snprintf((char *)file, 200, some[i / 2].header, (unsigned)now.side, (unsigned)now.side);
        now.file_len = (size_t)header + some[i / 2].depth * pixels_now() - i % 2;
        measure(by_steps);
        now.side--;
        measure(by_steps);
    }
}

/* Sides of one to four digits, one that is too large and one of 0; a file of the right length and a longer one. */
static void over_sides(bool by_steps)
{
    static const uint32_t some[][2] = {{1, 1}, {12, 3}, {4097, 1}, {0, 5}, {1, 123}, {SIDE, SIDE}, {PIXELS, 1}};
    for (size_t i = 0; i < (by_steps ? 4 : 7); i++)
        for (size_t more = 0; more < 2; more++) {
            now.width = some[i][0], now.height = some[i][1];
            now.pixels_len = now.width <= PIXELS ? (size_t)4 * now.width * now.height : 0;
            u64_out = 0;
            call_pam_length();
            now.file_len = u64_out + more;
            measure(by_steps);
        }
}

const Measured measured[] = {
    {"badge_to_oklab", CALL, call_to_oklab, over_colors},
    {"badge_oklab_sqdist", CALL, call_oklab_sqdist, over_components},
    {"badge_ordered_threshold", CALL, call_ordered_threshold, over_kinds},
    {"badge_bracket_width", CALL, call_bracket_width, over_kinds},
    {"badge_lerp", CALL, call_lerp, over_colors},
    {"badge_nearest", LOOKUP, call_nearest, over_lists},
    {"badge_nearest_two", LOOKUP, call_nearest_two, over_lists},
    {"badge_ordered_bracket", LOOKUP, call_ordered_bracket, over_lists},
    {"badge_pick", CALL, call_pick, over_kinds},
    {"badge_candidate_colors_in", CALL, call_candidate_colors_in, over_rooms},
    {"  in grey", CALL, call_candidate_colors_in, over_rooms_grey},
    {"  in opaque colour", CALL, call_candidate_colors_in, over_rooms_opaque},
    {"badge_quantize_pixels", CALL, call_quantize_pixels, over_palettes},
    {"  in grey", CALL, call_quantize_pixels, over_palettes_grey},
    {"  in opaque colour", CALL, call_quantize_pixels, over_palettes_opaque},
    {"badge_dither_to_mode", CALL, call_dither_to_mode, over_modes},
    {"  in grey", CALL, call_dither_to_mode, over_modes_grey},
    {"  in opaque colour", CALL, call_dither_to_mode, over_modes_opaque},
    {"badge_pam_size", CALL, call_pam_size, over_files},
    {"badge_read_pam", CALL, call_read_pam, over_files},
    {"badge_pam_length", CALL, call_pam_length, over_sides},
    {"badge_write_pam", CALL, call_write_pam, over_sides},
};

const size_t measured_count = sizeof measured / sizeof measured[0];
