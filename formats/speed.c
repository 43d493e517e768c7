/*
 * Measures the PAM calls, and prints two Markdown tables:
 *
 *   1024x1024   reading and writing, beside memcpy of all the file's bytes and of the pixels' four bytes each
 *   headers     nanoseconds a byte of the file, as a header of one kind grows
 *
 * Times are the processor's for this process, medians of runs that take turns. Ends with a failure where a call takes more
 * than three times as long as a copy of the file, or a byte of a header of 1 MiB twice as long as one of a header of 1/4.
 */
#define _POSIX_C_SOURCE 200809L
#include <stdbool.h>
#include <stdio.h>
#include <stdlib.h>
#include <string.h>
#include <time.h>

#include "badge_dither.h"

enum { SIDE = 1024, PIXELS = SIDE * SIDE, MIB = 1 << 20, RUNS = 101, MOST = 3 };

/* A file and the buffers that its calls and copies use. */
struct work {
    uint8_t *file, *pixels, *copy;
    size_t length, room;
    uint32_t number;
};

typedef void run(struct work *);

static void *lend(size_t length)
{
    void *room = malloc(length);
    if (room == NULL)
        exit(2);
    return memset(room, 1, length);
}

static void read_file(struct work *work)
{
    uint32_t width, height;
    work->number = badge_read_pam(work->file, work->length, work->pixels, work->room, &width, &height);
}

static void write_file(struct work *work)
{
    work->number = badge_write_pam(SIDE, SIDE, work->pixels, work->room, work->file, work->length);
}

static void copy_file(struct work *work)
{
    memcpy(work->copy, work->file, work->length);
}

static void copy_pixels(struct work *work)
{
    memcpy(work->copy, work->pixels, work->room);
}

/* Nanoseconds of one run. The compiler may not leave out what it writes. */
static double once(run *what, struct work *work)
{
    struct timespec from, to;
    clock_gettime(CLOCK_PROCESS_CPUTIME_ID, &from);
    what(work);
    __asm__ volatile("" ::"r"(work) : "memory");
    clock_gettime(CLOCK_PROCESS_CPUTIME_ID, &to);
    return 1e9 * (double)(to.tv_sec - from.tv_sec) + (double)(to.tv_nsec - from.tv_nsec);
}

static int by_time(const void *a, const void *b)
{
    double difference = *(const double *)a - *(const double *)b;
    return (difference > 0) - (difference < 0);
}

/* The medians of `count` runs that take turns, after one of each to warm up; run i is of work i. */
static void measure(size_t count, run *const what[], struct work *const work[], double median[])
{
    static double times[3][RUNS];
    for (int turn = -1; turn < RUNS; turn++)
        for (size_t i = 0; i < count; i++) {
            double time = once(what[i], work[i]);
            if (turn >= 0)
                times[i][turn] = time;
        }
    for (size_t i = 0; i < count; i++) {
        qsort(times[i], RUNS, sizeof times[i][0], by_time);
        median[i] = times[i][RUNS / 2];
    }
}

/* Ends the program where a call gave another number than it has to, since what was measured is then not what is said. */
static void expect(const char *name, uint32_t number, uint32_t wanted)
{
    if (number == wanted)
        return;
    fprintf(stderr, "speed: %s: answered with %u and not with %u\n", name, (unsigned)number, (unsigned)wanted);
    exit(2);
}

/* A file of 1024x1024 pixels, with noise for pixels. */
static struct work picture(const char *tuple, size_t depth)
{
    char header[128];
    const char *lines = "P7\nWIDTH %d\nHEIGHT %d\nDEPTH %d\nMAXVAL 255\nTUPLTYPE %s\nENDHDR\n";
    size_t head = (size_t)snprintf(header, sizeof header, lines, SIDE, SIDE, (int)depth, tuple);
    struct work work = {.length = head + depth * PIXELS, .room = 4 * PIXELS};
    work.file = lend(work.length);
    work.pixels = lend(work.room);
    work.copy = lend(work.length + work.room);
    memcpy(work.file, header, head);
    srand(1);
    for (size_t i = head; i < work.length; i++)
        work.file[i] = (uint8_t)(rand() >> 8);
    return work;
}

/* Prints one row, and gives the ratio to a copy of the file. */
static double row(const char *name, run *call, struct work *work)
{
    double median[3];
    measure(3, (run *const[]){call, copy_file, copy_pixels}, (struct work *const[]){work, work, work}, median);
    expect(name, work->number, BADGE_ACCEPTED);
    printf("| %s | %zu |", name, work->length);
    for (size_t i = 0; i < 3; i++)
        printf(" %.0f |", median[i] / 1e3);
    printf(" %.2f | %.2f |\n", median[0] / median[1], median[0] / median[2]);
    return median[0] / median[1];
}

static bool pictures_pass(void)
{
    struct work rgba = picture("RGB_ALPHA", 4), rgb = picture("RGB", 3);
    puts("| 1024x1024 | file, bytes | call, µs | copy of the file, µs | of the pixels, µs | ratio, file | ratio, pixels |");
    puts("|---|---:|---:|---:|---:|---:|---:|");
    bool pass = row("`badge_read_pam`, RGB_ALPHA", read_file, &rgba) <= MOST;
    pass = row("`badge_read_pam`, RGB", read_file, &rgb) <= MOST && pass;
    pass = row("`badge_write_pam`", write_file, &rgba) <= MOST && pass;
    puts("");
    return pass;
}

/* A header: what is repeated in it until the file is long enough, what stands before and after, and the number it gets. */
struct header {
    const char *name, *before, *repeated, *after;
    uint32_t number;
};

#define LINES "HEIGHT 1\nDEPTH 4\nMAXVAL 255\n"
#define TUPLE "TUPLTYPE RGB_ALPHA\n"
#define END "ENDHDR\n1234"

static const struct header headers[] = {
    {"comment lines of 16 bytes", "P7\n" LINES TUPLE, "# fifteen bytes\n", "WIDTH 1\n" END, 0},
    {"comment lines of one byte", "P7\n" LINES TUPLE, "#\n", "WIDTH 1\n" END, 0},
    {"one comment line", "P7\n" LINES TUPLE "#", "#", "\nWIDTH 1\n" END, 0},
    {"blank lines", "P7\n" LINES TUPLE, "\n", "WIDTH 1\n" END, 0},
    {"lines of white space", "P7\n" LINES TUPLE, "\t\v\f\r \n", "WIDTH 1\n" END, 0},
    {"white space before WIDTH", "P7\n" LINES TUPLE, " ", "WIDTH 1\n" END, 0},
    {"white space before its number", "P7\n" LINES TUPLE "WIDTH", " ", "1\n" END, 0},
    {"white space after its number", "P7\n" LINES TUPLE "WIDTH 1", " ", "\n" END, 0},
    {"WIDTH, zeros and a 1", "P7\n" LINES TUPLE "WIDTH ", "0", "1\n" END, 0},
    {"WIDTH, nines", "P7\n" LINES TUPLE "WIDTH ", "9", "\n" END, 2},
    {"WIDTH, tokens", "P7\n" LINES TUPLE "WIDTH", " 1", "\n" END, 10},
    {"white space after TUPLTYPE's value", "P7\nWIDTH 1\n" LINES "TUPLTYPE RGB_ALPHA", " ", "\n" END, 0},
    {"TUPLTYPE, a long value", "P7\nWIDTH 1\n" LINES "TUPLTYPE ", "R ", "\n" END, 10},
    {"a line that never ends", "P7\n" LINES TUPLE, "W", "", 10},
};

static struct work made(const struct header *header, size_t length)
{
    size_t before = strlen(header->before), piece = strlen(header->repeated), after = strlen(header->after);
    size_t times = (length - before - after) / piece;
    struct work work = {.length = before + times * piece + after, .room = 4};
    work.file = lend(work.length);
    work.pixels = lend(work.room);
    memcpy(work.file, header->before, before);
    for (size_t i = 0; i < times; i++)
        memcpy(work.file + before + i * piece, header->repeated, piece);
    memcpy(work.file + work.length - after, header->after, after);
    return work;
}

/* Prints nanoseconds a byte at a quarter, a half and a whole MiB; says whether they stay the same, or near it. */
static bool growth(const struct header *header)
{
    struct work quarter = made(header, MIB / 4), half = made(header, MIB / 2), whole = made(header, MIB);
    struct work *const work[] = {&quarter, &half, &whole};
    double median[3];
    measure(3, (run *const[]){read_file, read_file, read_file}, work, median);
    printf("| %s | %u |", header->name, (unsigned)header->number);
    for (size_t i = 0; i < 3; i++) {
        expect(header->name, work[i]->number, header->number);
        median[i] /= (double)work[i]->length;
        printf(" %.2f |", median[i]);
        free(work[i]->file);
        free(work[i]->pixels);
    }
    puts("");
    return median[2] <= 2 * median[0];
}

static bool headers_pass(void)
{
    bool pass = true;
    puts("| a header of | answer | 1/4 MiB, ns a byte | 1/2 MiB | 1 MiB |");
    puts("|---|---:|---:|---:|---:|");
    for (size_t i = 0; i < sizeof headers / sizeof headers[0]; i++)
        pass = growth(&headers[i]) && pass;
    puts("");
    return pass;
}

int main(void)
{
    bool near_a_copy = pictures_pass(), in_proportion = headers_pass();
    printf("at most %d times a copy of the file: %s\n", MOST, near_a_copy ? "yes" : "NO");
    printf("no work that grows faster than the file's length: %s\n", in_proportion ? "yes" : "NO");
    return near_a_copy && in_proportion ? EXIT_SUCCESS : EXIT_FAILURE;
}
