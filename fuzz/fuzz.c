/*
 * A fuzz of the C interface: arbitrary calls of all sixteen functions (calls.h) with buffers of exact length (lent.h). After
 * each call the number is held to the scope document's table, worked out here anew (table.h), and every buffer to what the
 * table says is left; a tile over its limit alone is taken as it comes, with its effects checked. What the values are is for
 * the comparison with the original to say (oracle/), but those of PAM files are worked out here (pam_file.h). Here is the run:
 *
 *   fuzz [--heap] SEED COUNT [FROM]
 *
 * makes COUNT calls, beginning with number FROM (0 by default), and ends with a table of how often each number was given.
 */
#include <inttypes.h>
#include <signal.h>
#include <stdio.h>
#include <stdlib.h>
#include <string.h>
#include <unistd.h>

#include "badge_dither.h"
#include "calls.h"
#include "held.h"
#include "lent.h"
#include "random.h"

uint64_t random_state;

enum { CALLS = 16, NUMBERS = BADGE_REFUSED_RETIRED_KIND + 1 };

/* The numbers that a call may give beside 0, as bits. */
enum {
    KIND = 1 << BADGE_REFUSED_KIND_OR_SHIFT,
    SIZE = 1 << BADGE_REFUSED_SIZE,
    LENGTH = 1 << BADGE_REFUSED_LENGTH,
    ENTRIES = 1 << BADGE_REFUSED_ENTRIES,
    TILES = 1 << BADGE_REFUSED_TILES,
    COMPONENT = 1 << BADGE_REFUSED_COMPONENT,
    MANY = 1 << BADGE_REFUSED_TOO_MANY_CANDIDATES,
    OVER = 1 << BADGE_REFUSED_TILE_OVER,
    NO_MATRIX = 1 << BADGE_REFUSED_NO_MATRIX,
    HEADER = 1 << BADGE_REFUSED_PAM_HEADER,
    PIXELS = 1 << BADGE_REFUSED_PAM_PIXELS,
    RETIRED = 1 << BADGE_REFUSED_RETIRED_KIND,
    LIST = LENGTH | ENTRIES | COMPONENT
};

static const struct {
    const char *name;
    uint32_t (*make)(void);
    unsigned refusals;
} calls[CALLS] = {
    {"to_oklab", try_to_oklab, 0},
    {"oklab_sqdist", try_oklab_sqdist, COMPONENT},
    {"ordered_threshold", try_ordered_threshold, KIND | RETIRED | NO_MATRIX},
    {"bracket_width", try_bracket_width, KIND},
    {"lerp", try_lerp, 0},
    {"nearest", try_nearest, LIST},
    {"nearest_two", try_nearest_two, LIST},
    {"ordered_bracket", try_ordered_bracket, LIST},
    {"pick", try_pick, KIND | RETIRED | LENGTH | NO_MATRIX},
    {"candidate_colors_in", try_candidate_colors_in, KIND | SIZE | LENGTH | MANY},
    {"quantize_pixels", try_quantize_pixels, KIND | RETIRED | SIZE | LENGTH | ENTRIES},
    {"dither_to_mode", try_dither_to_mode, KIND | RETIRED | SIZE | LENGTH | TILES | MANY | OVER},
    {"pam_size", try_pam_size, HEADER | SIZE | PIXELS},
    {"read_pam", try_read_pam, HEADER | SIZE | PIXELS | LENGTH},
    {"pam_length", try_pam_length, HEADER | SIZE},
    {"write_pam", try_write_pam, HEADER | SIZE | LENGTH},
};

static uint64_t given[CALLS][NUMBERS];

/* Whether a call may give a number. */
static bool may(size_t k, uint32_t number)
{
    return number == BADGE_ACCEPTED || (number < NUMBERS && (calls[k].refusals >> number & 1) != 0);
}

/* Whether some call may give a number; one that none may give has no column in the table. */
static bool some_may(uint32_t number)
{
    for (size_t k = 0; k < CALLS; k++)
        if (may(k, number))
            return true;
    return false;
}

/* Says which call was made when the archive touched what it may not. */
static void on_signal(int signal)
{
    char line[200];
    int length = snprintf(line, sizeof line, "seed %" PRIu64 ", call %" PRIu64 ", %s: ended by signal %d\n", seed,
                          number_of_call, name_of_call, signal);
    if (write(2, line, (size_t)length) < 0)
        _exit(3);
    _exit(1);
}

static void watch_signals(void)
{
    static const int signals[] = {SIGSEGV, SIGBUS, SIGFPE, SIGILL};
    for (size_t i = 0; i < 4; i++)
        signal(signals[i], on_signal);
}

static void make_call(void)
{
    random_begin(seed, number_of_call);
    size_t k = below(CALLS);
    name_of_call = calls[k].name;
    uint32_t number = calls[k].make();
    check(may(k, number), "a number that the call may not give");
    given[k][number]++;
    lent_return();
}

/* Prints a call's line of the table. Answers whether it gave each of its numbers. */
static bool report_call(size_t k)
{
    bool all_met = true;
    printf("\n%-20s", calls[k].name);
    for (uint32_t n = 0; n < NUMBERS; n++) {
        all_met = all_met && (!may(k, n) || given[k][n] != 0);
        if (may(k, n))
            printf("%9" PRIu64, given[k][n]);
        else if (some_may(n))
            printf("%9s", "-");
    }
    return all_met;
}

/* Prints how often each number was given. A long run that never met one of them has not tried it. */
static bool report(uint64_t count)
{
    bool all_met = true;
    printf("%-20s", "number");
    for (uint32_t n = 0; n < NUMBERS; n++)
        if (some_may(n))
            printf("%9" PRIu32, n);
    for (size_t k = 0; k < CALLS; k++)
        all_met = report_call(k) && all_met;
    printf("\nseed %" PRIu64 ": %" PRIu64 " calls, all as the table has it\n", seed, count);
    return all_met;
}

int main(int argc, char **argv)
{
    bool heap = argc > 1 && strcmp(argv[1], "--heap") == 0;
    argc -= heap;
    argv += heap;
    if (argc < 3) {
        fputs("usage: fuzz [--heap] SEED COUNT [FROM]\n", stderr);
        return 2;
    }
    seed = strtoull(argv[1], NULL, 0);
    uint64_t count = strtoull(argv[2], NULL, 0), from = argc > 3 ? strtoull(argv[3], NULL, 0) : 0;
    if (!heap)
        watch_signals();
    lent_begin(!heap);
    for (number_of_call = from; number_of_call < from + count; number_of_call++)
        make_call();
    if (!report(count) && count >= 20000) {
        fputs("a number that a call may give was never met\n", stderr);
        return 1;
    }
    return 0;
}
