/* The lookups over a list of candidates, and pick. See calls.h. */
#include "calls.h"

#include <string.h>

#include "badge_dither.h"
#include "held.h"
#include "make.h"
#include "random.h"
#include "table.h"

typedef struct {
    Lent *reduced, *normalized, *oklab;
} List;

static size_t entries_of(const List *list)
{
    return list->reduced->len / 4;
}

/* Puts the entry of an earlier position at some others too, where the lengths fit together. */
static void make_twins(const List *list)
{
    if (list_wrong(list->reduced->len, list->normalized->len, list->oklab->len))
        return;
    for (size_t i = 1; i < entries_of(list); i++)
        if (once_in(2)) {
            size_t twin = below(i);
            memcpy((uint8_t *)list->reduced->fill + 4 * i, (uint8_t *)list->reduced->fill + 4 * twin, 4);
            memcpy((uint8_t *)list->normalized->fill + 4 * i, (uint8_t *)list->normalized->fill + 4 * twin, 4);
            memcpy((float *)list->oklab->fill + 3 * i, (float *)list->oklab->fill + 3 * twin, 3 * sizeof(float));
        }
}

static List make_list(void)
{
    size_t entries = make_entries(65536);
    List list = {lend_to_read(make_length(4 * entries), 1), lend_to_read(make_length(4 * entries), 1),
                 make_oklab(make_length(3 * entries))};
    if (once_in(4))
        make_twins(&list);
    return list;
}

static uint32_t list_number(const List *list)
{
    if (list_wrong(list->reduced->len, list->normalized->len, list->oklab->len))
        return BADGE_REFUSED_LENGTH;
    if (entries_wrong(entries_of(list), 65536))
        return BADGE_REFUSED_ENTRIES;
    return some_component_wrong(list->oklab->fill, list->oklab->len) ? BADGE_REFUSED_COMPONENT : BADGE_ACCEPTED;
}

/* The nearest entry is the first of equals. */
static void check_nearest(const List *list, uint32_t position)
{
    check(position < entries_of(list), "a position");
    check(is_first(list->oklab, position, 3 * sizeof(float)), "a position that is not the first");
}

uint32_t try_nearest(void)
{
    List list = make_list();
    Lent *position = lend_to_write(1, sizeof(uint32_t));
    lent_remember();
    uint32_t number = badge_nearest(list.reduced->at, list.reduced->len, list.normalized->at, list.normalized->len,
                                    list.oklab->at, list.oklab->len, random_byte(), random_byte(), random_byte(),
                                    position->at);
    if (held(number, list_number(&list), NAMED(position)) == BADGE_ACCEPTED)
        check_nearest(&list, u32_in(position));
    return number;
}

uint32_t try_nearest_two(void)
{
    List list = make_list();
    Lent *first = lend_to_write(1, sizeof(uint32_t)), *second = lend_to_write(1, sizeof(uint32_t));
    lent_remember();
    uint32_t number = badge_nearest_two(list.reduced->at, list.reduced->len, list.normalized->at, list.normalized->len,
                                        list.oklab->at, list.oklab->len, random_byte(), random_byte(), random_byte(),
                                        make_width(), first->at, second->at);
    if (held(number, list_number(&list), NAMED(first, second)) == BADGE_ACCEPTED) {
        check_nearest(&list, u32_in(first));
        check(u32_in(second) < entries_of(&list), "a position");
        check((u32_in(first) == u32_in(second)) == (entries_of(&list) == 1), "a second");
    }
    return number;
}

typedef struct {
    Lent *dark, *light, *ratio, *dark_position, *light_position;
} Bracket;

static Bracket make_bracket(void)
{
    Bracket bracket = {lend_to_write(make_length(4), 1), lend_to_write(make_length(4), 1), lend_to_write(1, sizeof(float)),
                       lend_to_write(1, sizeof(uint32_t)), lend_to_write(1, sizeof(uint32_t))};
    return bracket;
}

/* A colour of a bracket is the reduced one of the entry at its position. */
static void check_color(const List *list, const Lent *color, const Lent *position)
{
    check(u32_in(position) < entries_of(list), "a position");
    const uint8_t *entry = (uint8_t *)list->reduced->fill + (size_t)4 * u32_in(position);
    check(memcmp(color->fill, entry, 4) == 0, "a colour of the bracket");
}

/* A bracket has the two entries of nearest_two, which are given, the first as dark where the second is not darker. */
static void check_bracket(const List *list, const Bracket *bracket, uint32_t first, uint32_t second)
{
    const float *oklab = list->oklab->fill;
    bool swapped = oklab[(size_t)3 * second] < oklab[(size_t)3 * first];
    check_color(list, bracket->dark, bracket->dark_position);
    check_color(list, bracket->light, bracket->light_position);
    check(u32_in(bracket->dark_position) == (swapped ? second : first), "dark's position");
    check(u32_in(bracket->light_position) == (swapped ? first : second), "light's position");
    check(float_in(bracket->ratio) >= 0.0f && float_in(bracket->ratio) <= 1.0f, "a ratio");
}

uint32_t try_ordered_bracket(void)
{
    List list = make_list();
    Bracket bracket = make_bracket();
    uint8_t r = random_byte(), g = random_byte(), b = random_byte();
    uint64_t width = make_width();
    lent_remember();
    uint32_t number = badge_ordered_bracket(list.reduced->at, list.reduced->len, list.normalized->at, list.normalized->len,
                                            list.oklab->at, list.oklab->len, r, g, b, width, bracket.dark->at,
                                            bracket.dark->len, bracket.light->at, bracket.light->len, bracket.ratio->at,
                                            bracket.dark_position->at, bracket.light_position->at);
    bool rooms = bracket.dark->len == 4 && bracket.light->len == 4;
    uint32_t expected = rooms ? list_number(&list) : BADGE_REFUSED_LENGTH;
    if (held(number, expected, NAMED(bracket.dark, bracket.light, bracket.ratio, bracket.dark_position,
                                     bracket.light_position)) == BADGE_ACCEPTED) {
        uint32_t first = 0, second = 0;
        badge_nearest_two(list.reduced->at, list.reduced->len, list.normalized->at, list.normalized->len, list.oklab->at,
                          list.oklab->len, r, g, b, width, &first, &second);
        check_bracket(&list, &bracket, first, second);
    }
    return number;
}

uint32_t try_pick(void)
{
    uint32_t kind = make_kind(), x = make_place(), y = make_place();
    float ratio = once_in(3) ? make_float() : (float)below(1025) / 1024.0f;
    Lent *dark = lend_to_read(make_length(4), 1), *light = lend_to_read(make_length(4), 1);
    Lent *chosen = lend_to_write(make_length(4), 1);
    if (once_in(6) && dark->len == light->len)
        memcpy(light->fill, dark->fill, dark->len);
    lent_remember();
    uint32_t number = badge_pick(dark->at, dark->len, light->at, light->len, ratio, kind, x, y, chosen->at, chosen->len);
    bool rooms = dark->len == 4 && light->len == 4 && chosen->len == 4;
    held(number, matrix_number(kind, !rooms), NAMED(chosen));
    if (number == BADGE_ACCEPTED) {
        float threshold = 0.0f;
        badge_ordered_threshold(kind, x, y, &threshold);
        check(memcmp(chosen->fill, ratio > threshold ? light->fill : dark->fill, 4) == 0, "a pick");
    }
    return number;
}
