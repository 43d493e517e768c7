/*
 * Calls with larger inputs than the recorded list has: pictures of 64x64 in every kind but the retired ones, some in each
 * reduction, 65,536 candidates and lookups over them, PAM files. Nothing is recorded for them: each must have its number here,
 * and every answer is kept, so that the board's are compared with the host's.
 */
#include <string.h>

#include "badge_dither.h"
#include "driver.h"
#include "machine.h"

enum { SIDE = 64, PIXELS = SIDE * SIDE, ENTRIES = 65536 };

/* ---- what is lent */

static uint8_t reduction[256], scale[256], palette[4 * 256], pixels[4 * ENTRIES], opaque[4 * PIXELS];
static uint8_t indices[PIXELS], out[4 * PIXELS], places[4 * ENTRIES], file[4 * PIXELS + 128];
static float oklab[3 * ENTRIES];
static int16_t cells[3 * PIXELS];

static uint64_t state;

static uint8_t random_byte(void)
{
    state = state * 6364136223846793005u + 1442695040888963407u;
    return (uint8_t)(state >> 56);
}

/* The original's tables, by the shift, with the reduction that truncates. */
static void make_tables(unsigned shift)
{
    for (unsigned v = 0; v < 256; v++) {
        const unsigned scaled[] = {v << 3 | v >> 2, v << 4 | v, v << 5 | v << 2 | v >> 1 | v >> 4,
                                   v << 6 | v << 4 | v << 2 | v};
        reduction[v] = (uint8_t)(v >> shift);
        scale[v] = (uint8_t)scaled[shift - 3];
    }
}

/* Any colours, or the greys from black on. */
static void make_palette(unsigned shift, bool greys)
{
    for (size_t i = 0; i < sizeof palette; i++)
        palette[i] = i % 4 == 3 ? 255 : greys ? (uint8_t)(i / 4) : random_byte() >> shift;
}

/* A picture: a gradient, or noise with one pixel of eight transparent, or noise of twelve colours. */
static void make_pixels(unsigned picture)
{
    for (size_t i = 0; i < PIXELS; i++) {
        uint8_t *p = pixels + 4 * i, few = (uint8_t)(random_byte() % 12 * 21), alpha = random_byte();
        p[0] = picture == 0 ? (uint8_t)(i % SIDE * 4) : picture == 1 ? random_byte() : few;
        p[1] = picture == 0 ? (uint8_t)(i / SIDE * 4) : picture == 1 ? random_byte() : (uint8_t)(255 - few);
        p[2] = picture == 0 ? (uint8_t)((i % SIDE + i / SIDE) * 2) : picture == 1 ? random_byte() : few / 2;
        p[3] = picture == 1 && alpha < 32 ? alpha : 255;
    }
}

/* The original's opaque_threshold of each pixel. */
static void make_opaque(void)
{
    memset(opaque, 0, sizeof opaque);
    for (size_t i = 0; i < sizeof opaque; i += 4)
        if (pixels[i + 3] >= 128)
            memcpy(opaque + i, pixels + i, 4);
}

static void make_rubbish(void)
{
    memset(indices, 0xee, sizeof indices);
    memset(out, 0xee, sizeof out);
    memset(cells, 0xee, sizeof cells);
    memset(places, 0xee, sizeof places);
    memset(oklab, 0xee, sizeof oklab);
}

/* ---- a line a group: its name, how many calls it has, and whether each had its number */

static bool some_wrong;
static uint32_t count, wrong;

static void number(uint32_t n, uint32_t wanted)
{
    count++;
    wrong += n != wanted;
    keep(&n, 4);
}

static void tell(const char *name)
{
    say(name);
    say(" ");
    say_number(count);
    say(wrong == 0 ? " as wanted\n" : " with another number\n");
    some_wrong = some_wrong || wrong != 0;
    count = wrong = 0;
}

/* ---- pictures */

#define TABLES reduction, 256, scale, 256

/* All but the two that are retired. */
static const uint32_t kinds[] = {BADGE_OFF,    BADGE_BAYER_2X2, BADGE_BAYER_4X4, BADGE_BAYER_8X8,      BADGE_CHECKER,
                                 BADGE_LINE_V, BADGE_LINE_H,    BADGE_ATKINSON,  BADGE_FLOYD_STEINBERG};

enum { KINDS = sizeof kinds / sizeof kinds[0] };

static size_t cells_of(uint32_t kind)
{
    return kind >= BADGE_ATKINSON ? 3 * PIXELS : 0;
}

/* The pictures, each in a mode's shift and reduction, and how many entries its palette has. */
typedef struct {
    unsigned picture;
    uint32_t shift, reducing;
    size_t entries;
} Setting;

static const Setting settings[] = {
    {0, 3, BADGE_BY_ALPHA, 256}, {1, 4, BADGE_BY_ALPHA, 256}, {2, 5, BADGE_BY_ALPHA, 16},
    {0, 5, BADGE_GREY, 8},       {1, 6, BADGE_GREY, 4},       {1, 6, BADGE_OPAQUE_COLOR, 64},
};

enum { SETTINGS = sizeof settings / sizeof settings[0] };

static size_t opaque_of(const Setting *s)
{
    return s->reducing != BADGE_BY_ALPHA ? sizeof opaque : 0;
}

static void with_setting(const Setting *s)
{
    make_tables(s->shift);
    make_palette(s->shift, s->reducing == BADGE_GREY);
    make_pixels(s->picture);
    make_opaque();
}

static void quantize(const Setting *s, uint32_t kind)
{
    make_rubbish();
    number(badge_quantize_pixels(s->shift, s->reducing, kind, SIDE, SIDE, TABLES, palette, 4 * s->entries, pixels, 4 * PIXELS,
                                 opaque, opaque_of(s), indices, PIXELS, out, 4 * PIXELS, cells, cells_of(kind)),
           BADGE_ACCEPTED);
    keep(indices, sizeof indices);
    keep(out, sizeof out);
    keep(cells, sizeof cells);
}

/* A limit of 256 is within any tile of 16x16, one of 2 is not. Colour zero is the first pixel's, or black, which opaque pixels
 * have where a pixel is transparent. */
static void dither(const Setting *s, uint32_t kind, uint32_t limit, uint32_t wanted)
{
    static const uint8_t black[3];
    const uint8_t *zero = s->reducing == BADGE_BY_ALPHA ? pixels : black;
    uint32_t counted = 0, tile = 0;
    make_rubbish();
    number(badge_dither_to_mode(s->shift, s->reducing, kind, SIDE, SIDE, 3, 5, 16, 16, limit, 1, reduction[zero[0]],
                                reduction[zero[1]], reduction[zero[2]], 255, TABLES, pixels, 4 * PIXELS, opaque, opaque_of(s),
                                places, 4 * PIXELS, oklab, 3 * PIXELS, out, 4 * PIXELS, cells, cells_of(kind), &counted,
                                &tile),
           wanted);
    keep(&counted, 4);
    keep(&tile, 4);
    keep(places, 4 * PIXELS);
    keep(oklab, sizeof oklab[0] * 3 * PIXELS);
    keep(out, sizeof out);
    keep(cells, sizeof cells);
}

static void quantize_pictures(void)
{
    for (const Setting *s = settings; s < settings + SETTINGS; s++) {
        with_setting(s);
        for (size_t k = 0; k < KINDS; k++)
            quantize(s, kinds[k]);
    }
    tell("quantize_pixels_64x64");
}

static void dither_pictures(void)
{
    for (const Setting *s = settings; s < settings + SETTINGS; s++) {
        with_setting(s);
        for (size_t k = 0; k < KINDS; k++)
            dither(s, kinds[k], 256, BADGE_ACCEPTED);
        dither(s, BADGE_FLOYD_STEINBERG, 2, BADGE_REFUSED_TILE_OVER);
    }
    tell("dither_to_mode_64x64");
}

/* ---- the longest lists: as many candidates as there can be, and lookups over them */

/* The opaque pixels are the pixels themselves, where the reduction takes any. */
static void collect(uint32_t shift, uint32_t reducing, uint32_t entries, uint32_t wanted)
{
    uint32_t counted = 0;
    make_rubbish();
    number(badge_candidate_colors_in(shift, reducing, 256, 256, TABLES, pixels, 4 * ENTRIES, pixels,
                                     reducing != BADGE_BY_ALPHA ? 4 * ENTRIES : 0, places, 4 * entries, oklab, 3 * entries,
                                     &counted),
           wanted);
    keep(&counted, 4);
    keep(places, sizeof places);
    keep(oklab, sizeof oklab);
}

/* Pixels that are all different, and tables that leave them so. */
static void collect_all(void)
{
    for (unsigned v = 0; v < 256; v++)
        reduction[v] = scale[v] = (uint8_t)v;
    for (size_t i = 0; i < ENTRIES; i++) {
        uint8_t *p = pixels + 4 * i;
        p[0] = (uint8_t)i, p[1] = (uint8_t)(i >> 8), p[2] = random_byte(), p[3] = 255;
    }
    collect(6, BADGE_GREY, 256, BADGE_ACCEPTED);
    collect(3, BADGE_BY_ALPHA, ENTRIES - 1, BADGE_REFUSED_TOO_MANY_CANDIDATES);
    collect(3, BADGE_BY_ALPHA, ENTRIES, BADGE_ACCEPTED);
    tell("candidate_colors_in_65536");
}

#define LIST places, 4 * ENTRIES, places, 4 * ENTRIES, oklab, 3 * ENTRIES

static void look_up(uint8_t r, uint8_t g, uint8_t b, uint64_t width)
{
    uint32_t first = 0, second = 0;
    uint8_t dark[4] = {0}, light[4] = {0};
    float ratio = 0;
    number(badge_nearest(LIST, r, g, b, &first), BADGE_ACCEPTED);
    keep(&first, 4);
    number(badge_nearest_two(LIST, r, g, b, width, &first, &second), BADGE_ACCEPTED);
    keep(&first, 4);
    keep(&second, 4);
    number(badge_ordered_bracket(LIST, r, g, b, width, dark, 4, light, 4, &ratio, &first, &second), BADGE_ACCEPTED);
    keep(dark, 4);
    keep(light, 4);
    keep(&ratio, 4);
    keep(&first, 4);
    keep(&second, 4);
}

static void look_up_all(void)
{
    for (unsigned turn = 0; turn < 6; turn++) {
        uint8_t r = random_byte(), g = random_byte(), b = random_byte();
        look_up(r, g, b, turn % 2 == 0 ? 16 : 1);
    }
    tell("lookups_65536");
}

/* ---- PAM files */

static void read_file(size_t len, size_t room, uint32_t sized, uint32_t wanted)
{
    uint32_t width = 0, height = 0;
    make_rubbish();
    number(badge_pam_size(file, len, &width, &height), sized);
    number(badge_read_pam(file, len, out, room, &width, &height), wanted);
    keep(&width, 4);
    keep(&height, 4);
    keep(out, sizeof out);
}

static void write_file(uint32_t width, uint32_t height, size_t more, uint32_t wanted)
{
    uint64_t len = 0;
    memset(file, 0xee, sizeof file);
    number(badge_pam_length(width, height, &len), BADGE_ACCEPTED);
    number(badge_write_pam(width, height, pixels, 4 * (size_t)width * height, file, len + more), wanted);
    keep(&len, 8);
    keep(file, sizeof file);
    if (wanted == BADGE_ACCEPTED)
        read_file(len, 4 * (size_t)width * height, BADGE_ACCEPTED, BADGE_ACCEPTED);
}

/* Puts a header before pixels that are there already, of three bytes each. Answers the file's length. */
static size_t put_header(const char *header)
{
    size_t len = strlen(header);
    memcpy(file, header, len);
    memcpy(file + len, pixels, 3 * PIXELS);
    return len + 3 * PIXELS;
}

static void pam_files(void)
{
    uint64_t len = 0;
    make_pixels(1);
    write_file(SIDE, SIDE, 0, BADGE_ACCEPTED);
    write_file(1, 4096, 0, BADGE_ACCEPTED);
    write_file(123, 7, 0, BADGE_ACCEPTED);
    write_file(12, 34, 1, BADGE_REFUSED_LENGTH);
    number(badge_pam_length(4097, 1, &len), BADGE_REFUSED_SIZE);
    number(badge_pam_length(5, 0, &len), BADGE_REFUSED_PAM_HEADER);

    size_t rgb = put_header("P7\n# any\nTUPLTYPE RGB\n \t\n\vMAXVAL 000255\r\nHEIGHT 64\nWIDTH 0064\n DEPTH  3 \nENDHDR\n");
    read_file(rgb, 4 * PIXELS, BADGE_ACCEPTED, BADGE_ACCEPTED);
    read_file(rgb - 1, 4 * PIXELS, BADGE_REFUSED_PAM_PIXELS, BADGE_REFUSED_PAM_PIXELS);
    read_file(rgb, 4 * PIXELS - 1, BADGE_ACCEPTED, BADGE_REFUSED_LENGTH);
    rgb = put_header("P7\nWIDTH 6400000000000000000000\nHEIGHT 64\nDEPTH 3\nMAXVAL 255\nTUPLTYPE RGB\nENDHDR\n");
    read_file(rgb, 4 * PIXELS, BADGE_REFUSED_SIZE, BADGE_REFUSED_SIZE);
    rgb = put_header("P7\nWIDTH 64 64\nENDHDR\n");
    read_file(rgb, 4 * PIXELS, BADGE_REFUSED_PAM_HEADER, BADGE_REFUSED_PAM_HEADER);
    tell("pam_files");
}

bool call_larger(void)
{
    state = 1;
    quantize_pictures();
    dither_pictures();
    collect_all();
    look_up_all();
    pam_files();
    return !some_wrong;
}
