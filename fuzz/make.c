/* Arbitrary arguments. See make.h. */
#include "make.h"

#include <string.h>

#include "random.h"
#include "table.h"

/* The nine kinds that are accepted. */
static const uint32_t kinds[] = {BADGE_OFF,    BADGE_BAYER_2X2, BADGE_BAYER_4X4, BADGE_BAYER_8X8,      BADGE_CHECKER,
                                 BADGE_LINE_V, BADGE_LINE_H,    BADGE_ATKINSON,  BADGE_FLOYD_STEINBERG};

uint32_t make_kind(void)
{
    if (once_in(25))
        return once_in(2) ? BADGE_FLOYD_STEINBERG + 1 : (uint32_t)random_bits();
    if (once_in(10)) /* often enough to meet all that may be wrong besides */
        return once_in(2) ? BADGE_STIPPLE_V : BADGE_STIPPLE_H;
    return kinds[below(sizeof kinds / sizeof kinds[0])];
}

uint32_t make_shift(void)
{
    if (once_in(25))
        return once_in(2) ? (once_in(2) ? 2 : 7) : (uint32_t)random_bits();
    return 3 + (uint32_t)below(4);
}

static uint32_t make_reducing(void)
{
    if (once_in(4)) /* often enough to meet all that may be wrong besides */
        return once_in(2) ? BADGE_OPAQUE_COLOR + 1 : (uint32_t)random_bits();
    return (uint32_t)below(3);
}

Pairing make_pairing(void)
{
    static const Pairing right[] = {{3, BADGE_BY_ALPHA}, {4, BADGE_BY_ALPHA}, {5, BADGE_BY_ALPHA},
                                    {5, BADGE_GREY},     {6, BADGE_GREY},     {6, BADGE_OPAQUE_COLOR}};
    if (once_in(10))
        return (Pairing){make_shift(), make_reducing()};
    return right[below(sizeof right / sizeof right[0])];
}

uint32_t make_place(void)
{
    return once_in(4) ? (uint32_t)random_bits() : (uint32_t)below(16);
}

float make_float(void)
{
    return float_of((uint32_t)random_bits());
}

float make_component(void)
{
    static const float ends[] = {2.0f, -2.0f, 0.0f, -0.0f, 1.0f};
    if (once_in(10))
        return ends[below(5)];
    return (float)below(4000001) / 1e6f - 2.0f;
}

uint64_t make_width(void)
{
    return once_in(8) ? random_bits() : below(20);
}

/* A size out of its bounds, with a few pixels lent all the same. */
static Size oversize(void)
{
    static const uint32_t sides[] = {4097, 65536, 0x80000000u, 0xffffffffu};
    uint32_t large = once_in(4) ? 4097 + (uint32_t)below(1u << 30) : sides[below(4)];
    uint32_t other = once_in(2) ? (uint32_t)below(4) : sides[below(4)];
    Size size = {large, other, below(20)};
    switch (below(4)) {
    case 0: size = (Size){other, large, below(20)}; break;
    case 1: size = (Size){4096, 257, below(20)}; break;
    case 2: size = (Size){1025, 1024, below(20)}; break;
    default: break;
    }
    return size;
}

/* A size within its bounds: small as a rule, at times long, rarely as large as may be. */
static Size within_bounds(void)
{
    uint32_t width = (uint32_t)below(10), height = (uint32_t)below(10);
    if (once_in(5)) {
        width = (uint32_t)below(41);
        height = (uint32_t)below(41);
    } else if (once_in(60)) {
        width = 4096;
        height = (uint32_t)below(3);
    } else if (once_in(60)) {
        width = (uint32_t)below(3);
        height = 4096;
    } else if (once_in(20000)) {
        width = once_in(2) ? 4096 : 256;
        height = 1048576 / width;
    }
    return (Size){width, height, (size_t)width * height};
}

Size make_size(void)
{
    if (once_in(20))
        return oversize();
    Size size = within_bounds();
    if (once_in(40)) /* as large as may be, and little is lent */
        size = (Size){4096, 256, below(20)};
    return size;
}

uint32_t make_origin(uint32_t side)
{
    if (once_in(8)) /* just within, or just over */
        return 4294967295u - side + (uint32_t)below(2);
    return once_in(4) ? (uint32_t)random_bits() >> 1 : (uint32_t)below(20);
}

uint32_t make_side(void)
{
    if (once_in(30))
        return once_in(2) ? 0 : once_in(2) ? 4097 : (uint32_t)random_bits();
    return once_in(8) ? 4096 - (uint32_t)below(2) : 1 + (uint32_t)below(9);
}

uint32_t make_limit(void)
{
    if (once_in(30))
        return once_in(2) ? 257 : (uint32_t)random_bits();
    return once_in(3) ? 256 : (uint32_t)below(20);
}

size_t make_length(size_t right)
{
    if (!once_in(40))
        return right;
    size_t less = right > 4 ? right - 4 : 0;
    size_t lengths[] = {right + 1, right - (right > 0), 0, right + 4, less, below(300), right + 3, right / 2};
    return lengths[below(8)];
}

size_t make_entries(size_t most)
{
    if (once_in(most > 256 ? 500 : 25))
        return most + below(2);
    if (once_in(30))
        return 0;
    return 1 + (once_in(4) ? below(256) : below(16));
}

/* A channel value up to 255 from one of the console's own, by repeating its bits. */
static uint8_t scale_up(unsigned value, uint32_t shift)
{
    unsigned bits = 8 - shift, v = value & (0xffu >> shift), all = v << shift;
    for (unsigned n = bits; n < 8; n += bits)
        all |= v << shift >> n;
    return (uint8_t)all;
}

/* A table of 256 bytes or of another length: the mode's own, one that changes nothing, a coarse one, or rubbish. */
static Lent *make_table(uint32_t shift, bool up)
{
    Lent *table = lend_to_read(make_length(256), 1);
    uint8_t *bytes = table->fill;
    uint32_t s = shift_wrong(shift) ? 3 : shift;
    uint64_t way = below(6);
    for (size_t v = 0; v < table->len && way != 0; v++)
        bytes[v] = way == 1 ? (uint8_t)v : way == 2 ? v & 0xc0 : up ? scale_up((unsigned)v, s) : (uint8_t)(v >> s);
    return table;
}

Lent *make_reduction(uint32_t shift)
{
    return make_table(shift, false);
}

Lent *make_scale(uint32_t shift)
{
    return make_table(shift, true);
}

/* Noise, few colours, or a gradient. */
Lent *make_pixels(size_t pixels)
{
    Lent *lent = lend_to_read(make_length(4 * pixels), 1);
    uint8_t *bytes = lent->fill;
    uint64_t way = below(4), alpha = below(4), colors = 1 + below(4);
    uint8_t some[16];
    for (size_t i = 0; i < 16; i++)
        some[i] = random_byte();
    for (size_t i = 0; i < lent->len; i++) {
        size_t pixel = i / 4, channel = i % 4;
        if (channel == 3 && alpha != 0)
            bytes[i] = alpha == 1 ? 127 + (uint8_t)below(2) : alpha == 2 && once_in(8) ? 0 : 255;
        else if (way == 1)
            bytes[i] = some[4 * (pixel * 7 % colors) + channel];
        else if (way == 2)
            bytes[i] = (uint8_t)(pixel * (channel + 1));
    }
    return lent;
}

/* What the original takes for the opaque pixels: the pixel, or four zeros where it is transparent. */
static void fill_threshold(const Lent *opaque, const Lent *pixels)
{
    uint8_t *to = opaque->fill;
    const uint8_t *from = pixels->fill;
    for (size_t i = 0; i + 4 <= opaque->len && i + 4 <= pixels->len; i += 4)
        memcpy(to + i, from[i + 3] < 128 ? (const uint8_t[4]){0} : from + i, 4);
}

/* The original's, another picture, or bytes of any sort; the pixels themselves, since both are only read; and now and again as
 * many as another reduction takes. */
Lent *make_opaque(uint32_t reducing, size_t count, Lent *pixels)
{
    bool other = once_in(40);
    if ((reducing == BADGE_BY_ALPHA) == other && once_in(8))
        return pixels;
    size_t right = opaque_length(reducing, count);
    if (other)
        right = right == 0 ? 4 * count : 0;
    if (once_in(4))
        return make_pixels(right / 4);
    Lent *opaque = lend_to_read(make_length(right), 1);
    if (once_in(2))
        fill_threshold(opaque, pixels);
    return opaque;
}

/* Entries that the reduction gives, all of them grey at times, entries again and again, transparent ones, or rubbish. */
Lent *make_palette(const Lent *reduction)
{
    Lent *palette = lend_to_read(make_length(4 * make_entries(256)), 1);
    const uint8_t *table = reduction->fill;
    uint8_t *bytes = palette->fill;
    bool rubbish = once_in(6), twins = once_in(4), greys = once_in(4);
    for (size_t i = 0; i < palette->len && !rubbish; i++) {
        if (twins && i >= 4 && once_in(2))
            bytes[i] = bytes[i - 4];
        else if (i % 4 == 3)
            bytes[i] = once_in(20) ? 0 : 255;
        else if (greys && i % 4 != 0)
            bytes[i] = bytes[i - 1];
        else if (reduction->len != 0)
            bytes[i] = table[below(reduction->len)];
    }
    return palette;
}

Lent *make_oklab(size_t len)
{
    Lent *lent = lend_to_read(len, sizeof(float));
    float *values = lent->fill;
    for (size_t i = 0; i < len; i++)
        values[i] = make_component();
    if (len != 0 && once_in(12))
        values[below(len)] = once_in(3) ? 2.0000002f : make_float();
    return lent;
}
