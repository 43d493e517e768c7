/* The calls on pictures: candidate_colors_in, quantize_pixels, dither_to_mode. See calls.h. */
#include "calls.h"

#include <stdlib.h>
#include <string.h>

#include "badge_dither.h"
#include "held.h"
#include "make.h"
#include "picture.h"
#include "random.h"
#include "table.h"

static uint32_t call_candidate_colors_in(const Picture *p, const Rooms *rooms, const Lent *count)
{
    return badge_candidate_colors_in(
        p->shift, p->reducing, p->size.width, p->size.height, p->reduction->at, p->reduction->len, p->scale->at, p->scale->len,
        p->pixels->at, p->pixels->len, p->opaque->at, p->opaque->len, rooms->places->at, rooms->places->len, rooms->oklab->at,
        rooms->oklab->len, count->at);
}

uint32_t try_candidate_colors_in(void)
{
    Picture p = make_picture();
    Rooms rooms = make_rooms(&p);
    Lent *count = lend_to_write(1, sizeof(uint32_t));
    lent_remember();
    uint32_t number = call_candidate_colors_in(&p, &rooms, count);
    uint32_t expected = rooms_number(&p, &rooms, BADGE_OFF, false, false);
    if (expected == BADGE_ACCEPTED && overflows(&rooms)) {
        check(number == BADGE_REFUSED_TOO_MANY_CANDIDATES, "too many candidates, and another number");
        check_overflow(&rooms);
    } else if (held(number, expected, NAMED(rooms.places, rooms.oklab, count)) == BADGE_ACCEPTED) {
        check(u32_in(count) == rooms.count, "the count");
        check_rooms(&rooms, p.scale);
    }
    if (once_in(2)) {
        change_alphas(&p);
        check_again(&p, number, call_candidate_colors_in(&p, &rooms, count));
    }
    free(rooms.list);
    return number;
}

typedef struct {
    uint32_t kind;
    Lent *palette, *indices, *out, *cells;
} Pass;

static Pass make_pass(const Picture *p)
{
    Pass pass = {.kind = make_kind(), .palette = make_palette(p->reduction)};
    pass.indices = lend_to_write(make_length(p->size.pixels), 1);
    pass.out = lend_to_write(make_length(4 * p->size.pixels), 1);
    pass.cells = make_cells(pass.kind, p->size.pixels);
    return pass;
}

/* Each index is an entry's, the first of its colour, and each pixel that entry, normalised; a transparent pixel is all 0. */
static void check_quantized(const Picture *p, const Pass *pass)
{
    const uint8_t *index = pass->indices->fill, *pixel = pass->out->fill;
    const uint8_t *entries = pass->palette->fill, *table = p->scale->fill;
    bool used[256] = {false};
    for (size_t i = 0; i < pass->indices->len; i++) {
        bool transparent = reduced_key(p, i) == 0;
        check(index[i] < pass->palette->len / 4 && (!transparent || index[i] == 0), "an index");
        for (size_t c = 0; c < 4; c++)
            check(pixel[4 * i + c] == (transparent ? 0 : table[entries[4 * index[i] + c]]), "a pixel");
        used[index[i]] = true;
    }
    for (size_t k = 0; k < 256; k++)
        check(!used[k] || is_first(pass->palette, k, 4), "an index that is not the first of its colour");
}

static uint32_t quantize_number(const Picture *p, const Pass *pass)
{
    size_t pixels = (size_t)p->size.width * p->size.height;
    uint32_t number = kind_number(pass->kind, pairing_wrong(p->shift, p->reducing));
    if (number != BADGE_ACCEPTED)
        return number;
    if (size_wrong(p->size.width, p->size.height))
        return BADGE_REFUSED_SIZE;
    if (picture_wrong(p) || pass->palette->len % 4 != 0 || pass->indices->len != pixels || pass->out->len != 4 * pixels
        || cells_wrong(pass->cells->len, pass->kind, pixels))
        return BADGE_REFUSED_LENGTH;
    return entries_wrong(pass->palette->len / 4, 256) ? BADGE_REFUSED_ENTRIES : BADGE_ACCEPTED;
}

static uint32_t call_quantize_pixels(const Picture *p, const Pass *pass)
{
    return badge_quantize_pixels(
        p->shift, p->reducing, pass->kind, p->size.width, p->size.height, p->reduction->at, p->reduction->len, p->scale->at,
        p->scale->len, pass->palette->at, pass->palette->len, p->pixels->at, p->pixels->len, p->opaque->at, p->opaque->len,
        pass->indices->at, pass->indices->len, pass->out->at, pass->out->len, pass->cells->at, pass->cells->len);
}

uint32_t try_quantize_pixels(void)
{
    Picture p = make_picture();
    Pass pass = make_pass(&p);
    lent_remember();
    uint32_t number = call_quantize_pixels(&p, &pass);
    if (held(number, quantize_number(&p, &pass), NAMED(pass.indices, pass.out, pass.cells)) == BADGE_ACCEPTED) {
        check_quantized(&p, &pass);
        check_cells(pass.cells);
    }
    if (once_in(2)) {
        change_alphas(&p);
        check_again(&p, number, call_quantize_pixels(&p, &pass));
    }
    return number;
}

typedef struct {
    uint32_t kind, origin_x, origin_y, tile_width, tile_height, limit, has_zero;
    uint8_t zero[4];
    Lent *out, *cells, *count, *tile;
} Mode;

/* Whether a picture has a first pixel, and what it reduces to is known. */
static bool has_pixel(const Picture *p)
{
    return !size_wrong(p->size.width, p->size.height) && !picture_wrong(p) && p->pixels->len != 0;
}

static Mode make_mode(const Picture *p)
{
    Mode m = {.kind = make_kind(), .tile_width = make_side(), .tile_height = make_side(), .limit = make_limit()};
    m.origin_x = make_origin(p->size.width);
    m.origin_y = make_origin(p->size.height);
    m.has_zero = once_in(2) ? 0 : once_in(2) ? 1 : (uint32_t)random_bits();
    uint32_t key = has_pixel(p) ? reduced_key(p, 0) : (uint32_t)random_bits();
    memcpy(m.zero, color_of(key).rgba, 3);
    m.zero[3] = random_byte();
    m.out = lend_to_write(make_length(4 * p->size.pixels), 1);
    m.cells = make_cells(m.kind, p->size.pixels);
    m.count = lend_to_write(1, sizeof(uint32_t));
    m.tile = lend_to_write(1, sizeof(uint32_t));
    return m;
}

/* The number, but for a tile over its limit. */
static uint32_t mode_number(const Picture *p, const Rooms *rooms, const Mode *m)
{
    size_t pixels = (size_t)p->size.width * p->size.height;
    bool size = origin_wrong(m->origin_x, p->size.width) || origin_wrong(m->origin_y, p->size.height);
    bool length = m->out->len != 4 * pixels || cells_wrong(m->cells->len, m->kind, pixels);
    uint32_t number = rooms_number(p, rooms, m->kind, size, length);
    if (number != BADGE_ACCEPTED)
        return number;
    if (tile_wrong(m->tile_width, m->tile_height, m->limit))
        return BADGE_REFUSED_TILES;
    return overflows(rooms) ? BADGE_REFUSED_TOO_MANY_CANDIDATES : BADGE_ACCEPTED;
}

/* What a tile over its limit leaves: the rooms as on acceptance, and a tile that there is. */
static void check_tile_over(const Picture *p, const Rooms *rooms, const Mode *m)
{
    uint32_t columns = (p->size.width + m->tile_width - 1) / m->tile_width;
    uint32_t rows = (p->size.height + m->tile_height - 1) / m->tile_height;
    check(rooms->count > m->limit, "a tile over its limit although there are too few colours for it");
    check(u32_in(m->tile) < columns * rows, "the tile");
    check(is_zero(m->out) && is_zero(m->cells), "pixels and cells after a tile over its limit");
    check(unchanged_but(NAMED(rooms->places, rooms->oklab, m->out, m->cells, m->count, m->tile)),
          "what a tile over its limit leaves");
}

/* A transparent pixel is all 0. Any other has alpha 255, normalised, and is a grey in grey; one of colour zero keeps its
 * reduced colour. */
static void check_pixel(const Picture *p, const Mode *m, size_t pixel)
{
    const uint8_t *out = (uint8_t *)m->out->fill + 4 * pixel, *table = p->scale->fill;
    uint32_t key = reduced_key(p, pixel);
    Color color = color_of(key);
    if (key == 0) {
        check(memcmp(out, "\0\0\0", 4) == 0, "a pixel");
        return;
    }
    check(out[3] == table[255], "a pixel");
    check(p->reducing != BADGE_GREY || (out[0] == out[1] && out[0] == out[2]), "a pixel that is no grey");
    if (m->has_zero != 0 && memcmp(color.rgba, m->zero, 3) == 0)
        for (size_t c = 0; c < 3; c++)
            check(out[c] == table[color.rgba[c]], "a pixel of colour zero");
}

/* What acceptance leaves. */
static void check_dithered(const Picture *p, const Rooms *rooms, const Mode *m)
{
    for (size_t i = 0; i < m->out->len / 4; i++)
        check_pixel(p, m, i);
    check_cells(m->cells);
    check(unchanged_but(NAMED(rooms->places, rooms->oklab, m->out, m->cells, m->count)), "what acceptance leaves");
}

static void check_mode(const Picture *p, const Rooms *rooms, const Mode *m, uint32_t number, uint32_t expected)
{
    bool over = number == BADGE_REFUSED_TILE_OVER;
    check(number == expected || (over && expected == BADGE_ACCEPTED), "another number than the table has");
    if (number == BADGE_REFUSED_TOO_MANY_CANDIDATES) {
        check_overflow(rooms);
        return;
    }
    if (number != BADGE_ACCEPTED && !over) {
        check(unchanged_but(NAMED(NULL)), "a buffer was changed");
        return;
    }
    if (over)
        check_tile_over(p, rooms, m);
    else
        check_dithered(p, rooms, m);
    check(u32_in(m->count) == rooms->count, "the count");
    check_rooms(rooms, p->scale);
}

static uint32_t call_dither_to_mode(const Picture *p, const Rooms *rooms, const Mode *m)
{
    return badge_dither_to_mode(
        p->shift, p->reducing, m->kind, p->size.width, p->size.height, m->origin_x, m->origin_y, m->tile_width,
        m->tile_height, m->limit, m->has_zero, m->zero[0], m->zero[1], m->zero[2], m->zero[3], p->reduction->at,
        p->reduction->len, p->scale->at, p->scale->len, p->pixels->at, p->pixels->len, p->opaque->at, p->opaque->len,
        rooms->places->at, rooms->places->len, rooms->oklab->at, rooms->oklab->len, m->out->at, m->out->len, m->cells->at,
        m->cells->len, m->count->at, m->tile->at);
}

uint32_t try_dither_to_mode(void)
{
    Picture p = make_picture();
    Rooms rooms = make_rooms(&p);
    Mode m = make_mode(&p);
    lent_remember();
    uint32_t number = call_dither_to_mode(&p, &rooms, &m);
    check_mode(&p, &rooms, &m, number, mode_number(&p, &rooms, &m));
    if (once_in(2)) {
        change_alphas(&p);
        check_again(&p, number, call_dither_to_mode(&p, &rooms, &m));
    }
    free(rooms.list);
    return number;
}
