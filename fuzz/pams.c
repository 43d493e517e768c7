/* The calls on PAM files: pam_size, read_pam, pam_length, write_pam. See calls.h. */
#include "calls.h"

#include <string.h>

#include "badge_dither.h"
#include "held.h"
#include "make.h"
#include "pam_file.h"
#include "random.h"
#include "table.h"

/* Where a call writes a width and a height. */
typedef struct {
    Lent *width, *height;
} Sides;

static Sides make_sides(void)
{
    return (Sides){lend_to_write(1, sizeof(uint32_t)), lend_to_write(1, sizeof(uint32_t))};
}

static void check_sides(const Sides *sides, uint32_t width, uint32_t height)
{
    check(u32_in(sides->width) == width && u32_in(sides->height) == height, "a size");
}

uint32_t try_pam_size(void)
{
    Size size;
    Lent *file = make_pam(&size);
    Sides sides = make_sides();
    lent_remember();
    uint32_t number = badge_pam_size(file->at, file->len, sides.width->at, sides.height->at);
    PamFile expected = pam_file(file->fill, file->len);
    if (held(number, expected.number, NAMED(sides.width, sides.height)) == BADGE_ACCEPTED)
        check_sides(&sides, expected.width, expected.height);
    return number;
}

/* Each pixel is the file's, with alpha 255 where it has none. */
static void check_pixels(const Lent *pixels, const PamFile *file)
{
    const uint8_t *got = pixels->fill, *from = file->pixels;
    for (size_t i = 0; i < pixels->len; i += 4, from += file->depth) {
        check(memcmp(got + i, from, 3) == 0, "a pixel");
        check(got[i + 3] == (file->depth == 4 ? from[3] : 255), "a pixel's alpha");
    }
}

uint32_t try_read_pam(void)
{
    Size size;
    Lent *file = make_pam(&size), *pixels = lend_to_write(make_length((once_in(30) ? 3 : 4) * size.pixels), 1);
    Sides sides = make_sides();
    lent_remember();
    uint32_t number = badge_read_pam(file->at, file->len, pixels->at, pixels->len, sides.width->at, sides.height->at);
    PamFile expected = pam_file(file->fill, file->len);
    if (expected.number == BADGE_ACCEPTED && pixels->len != (size_t)4 * expected.width * expected.height)
        expected.number = BADGE_REFUSED_LENGTH;
    if (held(number, expected.number, NAMED(pixels, sides.width, sides.height)) == BADGE_ACCEPTED) {
        check_sides(&sides, expected.width, expected.height);
        check_pixels(pixels, &expected);
    }
    return number;
}

uint32_t try_pam_length(void)
{
    Size size = make_size();
    Lent *length = lend_to_write(1, sizeof(uint64_t));
    lent_remember();
    uint32_t number = badge_pam_length(size.width, size.height, length->at);
    if (held(number, pam_number(size.width, size.height), NAMED(length)) == BADGE_ACCEPTED) {
        uint64_t expected = pam_header(size.width, size.height).len + (uint64_t)4 * size.width * size.height;
        check(memcmp(length->fill, &expected, sizeof expected) == 0, "a length");
    }
    return number;
}

/* The file is the header and then the pixels, and reading it gives the same size and pixels. */
static void check_written(const Size *size, const PamHeader *header, const Lent *pixels, const Lent *file, Lent *again,
                          const Sides *sides)
{
    check(memcmp(file->fill, header->text, header->len) == 0, "a header");
    check(memcmp((uint8_t *)file->fill + header->len, pixels->fill, pixels->len) == 0, "the pixels of a file");
    uint32_t number = badge_read_pam(file->at, file->len, again->at, again->len, sides->width->at, sides->height->at);
    check(number == BADGE_ACCEPTED, "what was written is not read");
    check_sides(sides, size->width, size->height);
    check(memcmp(again->fill, pixels->fill, pixels->len) == 0, "other pixels are read than were written");
    check(unchanged_but(NAMED((Lent *)file, again, sides->width, sides->height)), "reading changed a buffer");
}

uint32_t try_write_pam(void)
{
    Size size = make_size();
    PamHeader header = pam_header(size.width, size.height);
    Lent *pixels = make_pixels(size.pixels), *file = lend_to_write(make_length(header.len + 4 * size.pixels), 1);
    Lent *again = lend_to_write(4 * size.pixels, 1);
    Sides sides = make_sides();
    lent_remember();
    uint32_t number = badge_write_pam(size.width, size.height, pixels->at, pixels->len, file->at, file->len);
    uint32_t expected = pam_number(size.width, size.height);
    size_t needed = (size_t)4 * size.width * size.height;
    if (expected == BADGE_ACCEPTED && (pixels->len != needed || file->len != header.len + needed))
        expected = BADGE_REFUSED_LENGTH;
    if (held(number, expected, NAMED(file)) == BADGE_ACCEPTED)
        check_written(&size, &header, pixels, file, again, &sides);
    return number;
}
