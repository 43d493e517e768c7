/* What the three calls on pictures share. See picture.h. */
#include "picture.h"

#include <stdlib.h>
#include <string.h>

#include "badge_dither.h"
#include "held.h"
#include "random.h"
#include "table.h"

Picture make_picture(void)
{
    Pairing pairing = make_pairing();
    Picture p = {.shift = pairing.shift, .reducing = pairing.reducing, .size = make_size()};
    p.reduction = make_reduction(p.shift);
    p.scale = make_scale(p.shift);
    p.pixels = make_pixels(p.size.pixels);
    p.opaque = make_opaque(p.reducing, p.size.pixels, p.pixels);
    return p;
}

bool picture_wrong(const Picture *p)
{
    size_t pixels = (size_t)p->size.width * p->size.height;
    return p->reduction->len != 256 || p->scale->len != 256 || p->pixels->len != 4 * pixels
           || p->opaque->len != opaque_length(p->reducing, pixels);
}

/* The original's luma_u8. A step is a statement, so that the compiler rounds each. */
static uint8_t luma_u8(const uint8_t *c)
{
    float r = (float)c[0] / 255.0f, g = (float)c[1] / 255.0f, b = (float)c[2] / 255.0f;
    float red = r * 0.2126f, green = g * 0.7152f, blue = b * 0.0722f;
    float two = red + green;
    float all = two + blue;
    float luma = all * 255.0f;
    return luma > 255.0f ? 255 : (uint8_t)luma;
}

uint32_t reduced_key(const Picture *p, size_t pixel)
{
    const uint8_t *c = (uint8_t *)p->pixels->fill + 4 * pixel, *table = p->reduction->fill;
    if (p->reducing == BADGE_BY_ALPHA && c[3] < 128)
        return 0;
    if (p->reducing != BADGE_BY_ALPHA)
        c = (uint8_t *)p->opaque->fill + 4 * pixel;
    if (p->reducing == BADGE_GREY)
        return table[luma_u8(c)] * 0x01010100u | 255;
    return (uint32_t)table[c[0]] << 24 | (uint32_t)table[c[1]] << 16 | (uint32_t)table[c[2]] << 8 | 255;
}

Color color_of(uint32_t key)
{
    return (Color){{(uint8_t)(key >> 24), (uint8_t)(key >> 16), (uint8_t)(key >> 8), (uint8_t)key}};
}

/* Other alphas, each on its side of 128 where that is to stay. */
static void change_alphas_of(const Lent *pixels, bool side)
{
    uint8_t *bytes = pixels->fill;
    for (size_t i = 3; i < pixels->len; i += 4)
        bytes[i] = side ? (bytes[i] & 128) | (random_byte() & 127) : random_byte();
}

void change_alphas(const Picture *p)
{
    lent_again();
    change_alphas_of(p->pixels, p->reducing == BADGE_BY_ALPHA);
    change_alphas_of(p->opaque, false);
}

void check_again(const Picture *p, uint32_t number, uint32_t again)
{
    check(again == number && unchanged_but(NAMED(p->pixels, p->opaque)), "an alpha that plays no part");
}

static int by_number(const void *a, const void *b)
{
    uint32_t x = *(const uint32_t *)a, y = *(const uint32_t *)b;
    return (x > y) - (x < y);
}

/* The candidates of a picture whose lengths are right: distinct, ascending. The caller frees the list. */
static uint32_t *candidates_of(const Picture *p, size_t *count)
{
    size_t pixels = p->pixels->len / 4, kept = 0;
    uint32_t *keys = malloc((pixels + 1) * sizeof *keys);
    if (keys == NULL)
        fail("no memory");
    for (size_t i = 0; i < pixels; i++)
        if (reduced_key(p, i) != 0)
            keys[kept++] = reduced_key(p, i);
    qsort(keys, kept, sizeof *keys, by_number);
    *count = 0;
    for (size_t i = 0; i < kept; i++)
        if (i == 0 || keys[i] != keys[i - 1])
            keys[(*count)++] = keys[i];
    return keys;
}

Rooms make_rooms(const Picture *p)
{
    Rooms rooms = {.list = NULL};
    if (!size_wrong(p->size.width, p->size.height) && !picture_wrong(p))
        rooms.list = candidates_of(p, &rooms.count);
    size_t places = rooms.count + below(4);
    if (once_in(12) && rooms.count > 0)
        places = rooms.count - 1;
    if (once_in(200))
        places = 65536 + below(2);
    if (places > 65537)
        places = 65537;
    rooms.places = lend_to_write(make_length(4 * places), 1);
    rooms.oklab = lend_to_write(make_length(3 * places), sizeof(float));
    return rooms;
}

void check_rooms(const Rooms *rooms, const Lent *scale)
{
    const uint8_t *places = rooms->places->fill, *table = scale->fill;
    const float *oklab = rooms->oklab->fill;
    for (size_t i = 0; i < rooms->count; i++) {
        Color color = color_of(rooms->list[i]);
        float l, a, b;
        badge_to_oklab(table[color.rgba[0]], table[color.rgba[1]], table[color.rgba[2]], &l, &a, &b);
        check(memcmp(places + 4 * i, color.rgba, 4) == 0, "a candidate");
        check(oklab[3 * i] == l && oklab[3 * i + 1] == a && oklab[3 * i + 2] == b, "a candidate's Oklab colour");
    }
    check(is_unchanged_from(rooms->places, 4 * rooms->count, 1), "places after the candidates");
    check(is_unchanged_from(rooms->oklab, 3 * rooms->count, sizeof(float)), "Oklab colours after the candidates");
}

bool overflows(const Rooms *rooms)
{
    return rooms->count > rooms->places->len / 4;
}

uint32_t rooms_number(const Picture *p, const Rooms *rooms, uint32_t kind, bool size, bool length)
{
    uint32_t number = kind_number(kind, pairing_wrong(p->shift, p->reducing));
    if (number != BADGE_ACCEPTED)
        return number;
    if (size || size_wrong(p->size.width, p->size.height))
        return BADGE_REFUSED_SIZE;
    length = length || picture_wrong(p) || rooms_wrong(rooms->places->len, rooms->oklab->len);
    return length ? BADGE_REFUSED_LENGTH : BADGE_ACCEPTED;
}

void check_overflow(const Rooms *rooms)
{
    check(is_zero(rooms->places) && unchanged_but(NAMED(rooms->places)), "what too many candidates leave");
}

/* How many cells are lent: now and again as many as they should have bytes, or some for a kind that takes none. */
static size_t make_cell_count(uint32_t kind, size_t pixels)
{
    bool wrong = once_in(30);
    if (is_diffusion(kind))
        return wrong ? 6 * pixels : make_length(3 * pixels);
    return wrong ? 3 * pixels : make_length(0);
}

Lent *make_cells(uint32_t kind, size_t pixels)
{
    static const int16_t ends[] = {INT16_MIN, -4081, -4080, -1, 0, 1, 4080, 4081, INT16_MAX};
    Lent *lent = lend_to_write(make_cell_count(kind, pixels), sizeof(int16_t));
    int16_t *cells = lent->fill;
    for (size_t i = 0; i < lent->len; i++)
        if (once_in(8)) /* the rubbish seldom has them */
            cells[i] = ends[below(sizeof ends / sizeof ends[0])];
    return lent;
}

void check_cells(const Lent *lent)
{
    const int16_t *cells = lent->fill;
    for (size_t i = 0; i < lent->len; i++)
        check(cells[i] >= -4080 && cells[i] <= 4080, "an error cell");
}
