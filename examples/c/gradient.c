/*
 * An example of the C interface: a small grey gradient, dithered to four greys by a few kinds and printed as characters, and
 * then dithered to a mode, once within the limit of its tiles and once over it. Last it is dithered to the greys of a Game Boy,
 * which knows no transparent pixels. C11; link with libexports.a.
 */
#include <stdint.h>
#include <stdio.h>
#include <string.h>

#include "badge_dither.h"

#define COUNT(array) (sizeof(array) / sizeof((array)[0]))

enum { WIDTH = 48, HEIGHT = 16, PIXELS = WIDTH * HEIGHT, PLACES = 32, SHIFT = 3, GAME_BOY_SHIFT = 6 };

static uint8_t reduction[256], scale[256];
static uint8_t pixels[4 * PIXELS], opaque[4 * PIXELS];

/* The tables of five bits a channel: reducing drops three bits, scaling repeats the upper ones. */
static void make_tables(void)
{
    for (unsigned v = 0; v < 256; v++) {
        reduction[v] = (uint8_t)(v >> 3);
        scale[v] = (uint8_t)(v << 3 | v >> 2);
    }
}

/* The tables of a Game Boy, which has two bits a channel. */
static void make_game_boy_tables(void)
{
    for (unsigned v = 0; v < 256; v++) {
        reduction[v] = (uint8_t)(v >> 6);
        scale[v] = (uint8_t)(v << 6 | v << 4 | v << 2 | v);
    }
}

/* From black at the left to white at the right, with a transparent corner; and the opaque pixels of it, in which that is 0. */
static void make_picture(void)
{
    for (unsigned i = 0; i < PIXELS; i++) {
        unsigned x = i % WIDTH, y = i / WIDTH;
        uint8_t grey = (uint8_t)(x * 255 / (WIDTH - 1));
        uint8_t alpha = x + y < 6 ? 0 : 255;
        memcpy(pixels + 4 * i, (uint8_t[]){grey, grey, grey, alpha}, 4);
        if (alpha >= 128)
            memcpy(opaque + 4 * i, pixels + 4 * i, 4);
    }
}

/* Prints a picture, one character a pixel: '-' where it is transparent, else by palette index. */
static void print_picture(const uint8_t *indices, const uint8_t *out)
{
    for (unsigned y = 0; y < HEIGHT; y++) {
        char line[WIDTH + 1] = "";
        for (unsigned x = 0; x < WIDTH; x++) {
            unsigned i = y * WIDTH + x;
            line[x] = out[4 * i + 3] == 0 ? '-' : " .o#"[indices[i] % 4];
        }
        printf("|%s|\n", line);
    }
}

/* Dithers the picture to four greys by one kind and prints it. */
static int show_kind(const char *name, uint32_t kind)
{
    static const uint8_t palette[] = {0, 0, 0, 255, 10, 10, 10, 255, 21, 21, 21, 255, 31, 31, 31, 255};
    static uint8_t indices[PIXELS], out[4 * PIXELS];
    static int16_t cells[3 * PIXELS];
    size_t cells_len = kind == BADGE_ATKINSON || kind == BADGE_FLOYD_STEINBERG ? COUNT(cells) : 0;

    uint32_t number = badge_quantize_pixels(SHIFT, BADGE_BY_ALPHA, kind, WIDTH, HEIGHT, reduction, COUNT(reduction),
                                            scale, COUNT(scale), palette, COUNT(palette), pixels, COUNT(pixels), NULL, 0,
                                            indices, COUNT(indices), out, COUNT(out), cells_len ? cells : NULL, cells_len);
    if (number != BADGE_ACCEPTED) {
        printf("%s: refused with %u\n", name, (unsigned)number);
        return 1;
    }
    printf("%s\n", name);
    print_picture(indices, out);
    return 0;
}

/* Dithers the picture to its own candidates, with tiles of 8x8 that may have so many colours. */
static uint32_t show_mode(uint32_t limit)
{
    static uint8_t places[4 * PLACES], out[4 * PIXELS];
    static float oklab[3 * PLACES];
    uint32_t count = 0, tile = 0;

    uint32_t number = badge_dither_to_mode(SHIFT, BADGE_BY_ALPHA, BADGE_OFF, WIDTH, HEIGHT, 0, 0, 8, 8, limit, 0, 0, 0, 0, 0,
                                           reduction, COUNT(reduction), scale, COUNT(scale), pixels, COUNT(pixels), NULL, 0,
                                           places, COUNT(places), oklab, COUNT(oklab), out, COUNT(out), NULL, 0,
                                           &count, &tile);
    if (number == BADGE_ACCEPTED)
        printf("limit %u: %u candidates, every tile within its limit\n", (unsigned)limit, (unsigned)count);
    else if (number == BADGE_REFUSED_TILE_OVER)
        printf("limit %u: %u candidates, tile %u is over its limit\n", (unsigned)limit, (unsigned)count, (unsigned)tile);
    else
        printf("limit %u: refused with %u\n", (unsigned)limit, (unsigned)number);
    return number;
}

/* Dithers the picture to the greys of a Game Boy that it has, and prints it: the corner is drawn like the rest. */
static int show_game_boy(void)
{
    static uint8_t indices[PIXELS], places[4 * PLACES], out[4 * PIXELS];
    static float oklab[3 * PLACES];
    uint32_t count = 0, tile = 0;

    make_game_boy_tables();
    uint32_t number = badge_dither_to_mode(GAME_BOY_SHIFT, BADGE_GREY, BADGE_BAYER_4X4, WIDTH, HEIGHT, 0, 0, 8, 8, 4,
                                           0, 0, 0, 0, 0, reduction, COUNT(reduction), scale, COUNT(scale),
                                           pixels, COUNT(pixels), opaque, COUNT(opaque), places, COUNT(places),
                                           oklab, COUNT(oklab), out, COUNT(out), NULL, 0, &count, &tile);
    if (number != BADGE_ACCEPTED) {
        printf("Game Boy: refused with %u\n", (unsigned)number);
        return 1;
    }
    printf("Game Boy, Bayer 4x4: %u greys\n", (unsigned)count);
    for (unsigned i = 0; i < PIXELS; i++)
        indices[i] = reduction[out[4 * i]];
    print_picture(indices, out);
    return 0;
}

int main(void)
{
    static const struct {
        const char *name;
        uint32_t kind;
    } kinds[] = {{"off", BADGE_OFF}, {"Bayer 4x4", BADGE_BAYER_4X4}, {"checker", BADGE_CHECKER},
                 {"vertical lines", BADGE_LINE_V}, {"Atkinson", BADGE_ATKINSON}, {"Floyd-Steinberg", BADGE_FLOYD_STEINBERG}};
    make_tables();
    make_picture();
    int failed = 0;
    for (size_t k = 0; k < COUNT(kinds); k++)
        failed |= show_kind(kinds[k].name, kinds[k].kind);
    failed |= show_mode(8) != BADGE_ACCEPTED;
    failed |= show_mode(4) != BADGE_REFUSED_TILE_OVER;
    failed |= show_game_boy();
    return failed;
}
