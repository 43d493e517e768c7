/* The calls on single values: to_oklab, oklab_sqdist, ordered_threshold, bracket_width, lerp. See calls.h. */
#include "calls.h"

#include <math.h>
#include <string.h>

#include "badge_dither.h"
#include "held.h"
#include "make.h"
#include "random.h"
#include "table.h"

uint32_t try_to_oklab(void)
{
    Lent *l = lend_to_write(1, sizeof(float)), *a = lend_to_write(1, sizeof(float)), *b = lend_to_write(1, sizeof(float));
    badge_to_oklab(random_byte(), random_byte(), random_byte(), l->at, a->at, b->at);
    check(!component_wrong(float_in(l)) && !component_wrong(float_in(a)) && !component_wrong(float_in(b)), "a component");
    return 0;
}

uint32_t try_oklab_sqdist(void)
{
    float c[6];
    for (size_t i = 0; i < 6; i++)
        c[i] = make_component();
    if (once_in(3))
        c[below(6)] = once_in(3) ? -2.0000002f : make_float();
    Lent *distance = lend_to_write(1, sizeof(float));
    lent_remember();
    uint32_t number = badge_oklab_sqdist(c[0], c[1], c[2], c[3], c[4], c[5], distance->at);
    held(number, some_component_wrong(c, 6) ? BADGE_REFUSED_COMPONENT : BADGE_ACCEPTED, NAMED(distance));
    check(number != BADGE_ACCEPTED || (float_in(distance) >= 0.0f && float_in(distance) < 100.0f), "a distance");
    return number;
}

uint32_t try_ordered_threshold(void)
{
    uint32_t kind = make_kind();
    Lent *threshold = lend_to_write(1, sizeof(float));
    lent_remember();
    uint32_t number = badge_ordered_threshold(kind, make_place(), make_place(), threshold->at);
    held(number, matrix_number(kind, false), NAMED(threshold));
    check(number != BADGE_ACCEPTED || (float_in(threshold) > 0.0f && float_in(threshold) < 1.0f), "a threshold");
    return number;
}

uint32_t try_bracket_width(void)
{
    uint32_t shift = make_shift();
    uint64_t max = once_in(2) ? below(300) : random_bits() >> below(64);
    Lent *width = lend_to_write(1, sizeof(uint64_t));
    lent_remember();
    uint32_t number = badge_bracket_width(shift, max, width->at);
    held(number, shift_wrong(shift) ? BADGE_REFUSED_KIND_OR_SHIFT : BADGE_ACCEPTED, NAMED(width));
    uint64_t few = max < 1000 ? (max * shift + 8) / 16 : 16, got;
    memcpy(&got, width->fill, sizeof got);
    check(number != BADGE_ACCEPTED || got == (few < 1 ? 1 : few > 16 ? 16 : few), "a width");
    return number;
}

uint32_t try_lerp(void)
{
    uint8_t c[9];
    bool near = once_in(4);
    for (size_t i = 0; i < 9; i++)
        c[i] = near ? (uint8_t)below(3) : random_byte();
    uint32_t clamp = once_in(3) ? 0 : (uint32_t)random_bits();
    float share = badge_lerp(c[0], c[1], c[2], c[3], c[4], c[5], c[6], c[7], c[8], clamp);
    check(isfinite(share) && (clamp == 0 || (share >= 0.0f && share <= 1.0f)), "a share");
    check(memcmp(c, c + 3, 3) != 0 || share == 0.0f, "a share of equal ends");
    return 0;
}
