/*
 * The three lookups over a slice of candidate records, and what each is measured over: lists of none to 65,537 records, one
 * with a component out of range, widths of 1 and 16. See stack.h. They are no part of the C interface: records.sh has them
 * compiled and gives them names that C can call. How they take arguments and answer is the toolchain's own affair, so each
 * answer is first held to that of the lookup over flat lists.
 */
#include "stack.h"

#include <stdio.h>
#include <stdlib.h>
#include <string.h>

#include "badge_dither.h"
#include "random.h"

enum { ENTRIES = 65536 };

uint64_t random_state = 1;

typedef struct {
    uint8_t reduced[4], normalized[4];
    float oklab[3];
} Record;

typedef struct {
    const Record *at;
    size_t len;
} Records;

typedef struct {
    Record copy;
    size_t position;
} Taken;

typedef struct {
    uint8_t tag, refusal; /* 0, or 1 of a refusal, and then which of them it is */
    Taken first;
    uint8_t two; /* of `nearest_two`: whether there is a second */
    Taken second;
} Found;

typedef struct {
    uint8_t tag, refusal;
    struct {
        uint8_t dark[4], light[4];
        float ratio;
        size_t dark_position, light_position;
    } bracket;
} FoundBracket;

void records_nearest(Found *found, const Record *at, size_t len, const uint8_t *color);
void records_nearest_two(Found *found, const uint8_t *color, const Record *at, size_t len, uint64_t width);
void records_ordered_bracket(FoundBracket *found, const uint8_t *color, const Record *at, size_t len, uint64_t width);

/* ---- what is lent: the same list as records and flat */

static Record records[ENTRIES + 1];
static uint8_t colors[4 * (ENTRIES + 1)];
static float oklab[3 * (ENTRIES + 1)];

static struct {
    Records list;
    uint8_t color[4];
    uint64_t width;
} now;

static Found found;
static FoundBracket found_bracket;

static void call_nearest(void)
{
    records_nearest(&found, now.list.at, now.list.len, now.color);
}

static void call_nearest_two(void)
{
    records_nearest_two(&found, now.color, now.list.at, now.list.len, now.width);
}

static void call_ordered_bracket(void)
{
    records_ordered_bracket(&found_bracket, now.color, now.list.at, now.list.len, now.width);
}

/* ---- what they answer */

static void same(bool holds, const char *what)
{
    if (!holds) {
        fprintf(stderr, "%s answers otherwise over records (%zu of them) than over a flat list\n", what, now.list.len);
        exit(2);
    }
}

/* Whether an answer is the refusal with a number. The refusals are numbered as `replies::Refusal` has them. */
static bool is_refused(uint8_t tag, uint8_t refusal, uint32_t number)
{
    static const uint8_t numbers[] = {1, 2, 3, 4, 5, 6, 7, 9, 10, 11, 15};
    return tag == 1 && refusal < sizeof numbers && numbers[refusal] == number;
}

/* Whether a record was taken from a position of the list. */
static bool is_taken(const Taken *taken, uint32_t position)
{
    return taken->position == position && memcmp(&taken->copy, records + position, sizeof(Record)) == 0;
}

#define FLAT colors, 4 * now.list.len, colors, 4 * now.list.len, oklab, 3 * now.list.len, r, g, b

/* Holds the three answers, as things stand, to those over the flat list. */
static void check_answers(bool by_steps)
{
    (void)by_steps;
    uint8_t r = now.color[0], g = now.color[1], b = now.color[2], dark[4], light[4];
    uint32_t first = 0, second = 0, number;
    float ratio = 0.0f;

    call_nearest();
    number = badge_nearest(FLAT, &first);
    same(number == BADGE_ACCEPTED ? found.tag == 0 && is_taken(&found.first, first)
                                  : is_refused(found.tag, found.refusal, number),
         "nearest");

    call_nearest_two();
    number = badge_nearest_two(FLAT, now.width, &first, &second);
    same(number == BADGE_ACCEPTED ? found.tag == 0 && is_taken(&found.first, first) && found.two == (first != second)
                                        && (first == second || is_taken(&found.second, second))
                                  : is_refused(found.tag, found.refusal, number),
         "nearest_two");

    call_ordered_bracket();
    number = badge_ordered_bracket(FLAT, now.width, dark, 4, light, 4, &ratio, &first, &second);
    same(number == BADGE_ACCEPTED ? found_bracket.tag == 0 && memcmp(found_bracket.bracket.dark, dark, 4) == 0
                                        && memcmp(found_bracket.bracket.light, light, 4) == 0
                                        && found_bracket.bracket.ratio == ratio
                                        && found_bracket.bracket.dark_position == first
                                        && found_bracket.bracket.light_position == second
                                  : is_refused(found_bracket.tag, found_bracket.refusal, number),
         "ordered_bracket");
}

/* ---- what each is measured over */

/* Sets a component of record k, in both lists. */
static void set_component(size_t k, float value)
{
    records[k].oklab[1] = oklab[3 * k + 1] = value;
}

/* Acts on lists of every length with some colours and widths, and on one that is refused for a component. */
static void over(bool by_steps, void (*act)(bool by_steps))
{
    static const size_t lengths[] = {0, 1, 2, 40, 300, ENTRIES, ENTRIES + 1};
    static const uint8_t some[6][4] = {
        {0, 0, 0, 255}, {255, 255, 255, 255}, {1, 0, 0, 255}, {0, 0, 255, 255}, {200, 30, 99, 255}, {128, 128, 128, 255},
    };
    for (size_t i = 0; i < (by_steps ? 4 : 7); i++)
        for (size_t k = 0; k < 6; k++) {
            now.list = (Records){records, lengths[i]};
            memcpy(now.color, some[k], 4);
            now.width = k % 2 ? 16 : 1;
            act(by_steps);
        }
    float kept = records[1].oklab[1];
    now.list.len = 40;
    set_component(1, 3.0f);
    act(by_steps);
    set_component(1, kept);
}

static void over_lists(bool by_steps)
{
    over(by_steps, measure);
}

void make_inputs(void)
{
    for (size_t i = 0; i <= ENTRIES; i++) {
        uint8_t *color = colors + 4 * i;
        float *o = oklab + 3 * i;
        for (size_t c = 0; c < 4; c++)
            color[c] = random_byte();
        badge_to_oklab(color[0], color[1], color[2], o, o + 1, o + 2);
        memcpy(records[i].reduced, color, 4);
        memcpy(records[i].normalized, color, 4);
        memcpy(records[i].oklab, o, sizeof records[i].oklab);
    }
    over(false, check_answers);
}

const Measured measured[] = {
    {"records::nearest", LOOKUP, call_nearest, over_lists},
    {"records::nearest_two", LOOKUP, call_nearest_two, over_lists},
    {"records::ordered_bracket", LOOKUP, call_ordered_bracket, over_lists},
};

const size_t measured_count = sizeof measured / sizeof measured[0];
