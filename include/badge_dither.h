/*
 * The badge dither: SuperFamiconv's dithering behind a C interface. Link with libexports.a, which `rt lib` writes to
 * crates/exports/out.
 *
 * Numbers. Kinds, reductions and refusals are numbers, which `enum badge_kind`, `enum badge_reducing` and `enum badge_refusal`
 * name; a call takes any number as a kind or a reduction. A call that can refuse returns 0, BADGE_ACCEPTED, where it accepts.
 * It can be refused with the numbers that its comment names, without their BADGE_REFUSED_, and with no others; where several
 * apply, with the first in the comment's order. A refusal changes nothing: what is behind a pointer and what is in a buffer is
 * as it was, unless the call's comment says otherwise.
 *
 * Buffers. A buffer is a pointer and, after it, a length (badge_length) that counts elements: bytes of a uint8_t buffer,
 * floats of a float buffer, cells of an int16_t buffer. The pointer may be null where the length is 0. A pointer to a single
 * value is never null. What a call writes must not overlap anything else of the same call; buffers that are only read (const)
 * may share memory. Nothing is kept after a call, and no memory is allocated. badge_nearest, badge_nearest_two and
 * badge_ordered_bracket take at most 1 KiB of stack, other calls at most 16.
 *
 * Colours. A colour in a buffer is four bytes: red, green, blue, alpha. A reduced colour has a console's own precision, a
 * normalised one is the same colour from 0 to 255. An Oklab colour is three floats: lightness, a, b.
 */
#ifndef BADGE_DITHER_H
#define BADGE_DITHER_H

#include <stddef.h>
#include <stdint.h>

#ifdef __cplusplus
extern "C" {
#endif

/*
 * A length. The library counts in 64 bits on every machine, so a length is 64 bits wide even where pointers are not: there
 * size_t would put all that comes after it in the wrong place.
 */
#if UINTPTR_MAX == UINT64_MAX
typedef size_t badge_length;
#else
typedef uint64_t badge_length;
#endif

/*
 * The kinds of dithering. The number of a retired kind is never given to another, so that a number that somebody kept is
 * refused and not drawn as something else.
 */
enum badge_kind {
    BADGE_OFF = 0, /* none: the nearest colour */

    /* the ordered kinds, each with a matrix of thresholds */
    BADGE_BAYER_2X2 = 1,
    BADGE_BAYER_4X4 = 2,
    BADGE_BAYER_8X8 = 3,
    BADGE_CHECKER = 4,
    BADGE_LINE_V = 7, /* vertical lines */
    BADGE_LINE_H = 8, /* horizontal lines */

    /* the diffusing kinds, which pass error on to later pixels */
    BADGE_ATKINSON = 9,
    BADGE_FLOYD_STEINBERG = 10,

    /* the retired kinds: every call that takes a kind refuses them with RETIRED_KIND */
    BADGE_STIPPLE_V = 5, /* retired: vertical stipple */
    BADGE_STIPPLE_H = 6  /* retired: horizontal stipple */
};

/* How a mode reduces a pixel, and the shifts that go with it. What each does is said before the calls on pictures. */
enum badge_reducing {
    BADGE_BY_ALPHA = 0,    /* its colour, or transparent: shift 3, 4 or 5 */
    BADGE_GREY = 1,        /* the grey of its opaque pixel: shift 5 or 6 */
    BADGE_OPAQUE_COLOR = 2 /* the colour of its opaque pixel: shift 6 */
};

/* What a call that can refuse returns. */
enum badge_refusal {
    BADGE_ACCEPTED = 0,
    /* a kind above 10; in a call on pictures a reduction above 2, or a shift that does not go with the reduction; in
       badge_bracket_width a shift that is not from 3 to 6 */
    BADGE_REFUSED_KIND_OR_SHIFT = 1,
    /* a picture that is too large: a side above 4,096, or more than 1,048,576 pixels, or an origin and a side that add up to
       more than 4,294,967,295 */
    BADGE_REFUSED_SIZE = 2,
    /* a length that is wrong, or that does not fit the others */
    BADGE_REFUSED_LENGTH = 3,
    /* a palette that is empty or has more than 256 entries, or a list that is empty or has more than 65,536 */
    BADGE_REFUSED_ENTRIES = 4,
    /* a tile side that is not from 1 to 4,096, or a limit above 256 */
    BADGE_REFUSED_TILES = 5,
    /* an Oklab component that is not from -2 to 2 (NaN is not) */
    BADGE_REFUSED_COMPONENT = 6,
    /* more candidates than places for them */
    BADGE_REFUSED_TOO_MANY_CANDIDATES = 7,
    /* a tile that is over its limit */
    BADGE_REFUSED_TILE_OVER = 8,
    /* a threshold or a pick asked of BADGE_OFF or of a diffusing kind */
    BADGE_REFUSED_NO_MATRIX = 9,
    /* a PAM file whose header is not one of those that are read, or a picture without pixels, to be read or to be written */
    BADGE_REFUSED_PAM_HEADER = 10,
    /* a PAM file that has fewer bytes after its header than the pixels take, or more */
    BADGE_REFUSED_PAM_PIXELS = 11,
    /* a retired kind: 5 or 6. It comes directly after KIND_OR_SHIFT: a retired kind with a wrong shift or reduction is refused
       with that, and one with a wrong size or length with this */
    BADGE_REFUSED_RETIRED_KIND = 15
};

/*
 * The Oklab colour of a colour (r, g, b), each component rounded to a whole number of millionths and then to a float. Of a
 * grey, where r, g and b are the same, a and b are 0; white is 1, 0, 0.
 * Writes lightness, a and b. It never refuses.
 */
void badge_to_oklab(uint8_t r, uint8_t g, uint8_t b, float *lightness, float *out_a, float *out_b);

/*
 * The squared distance of the Oklab colours (l1, a1, b1) and (l2, a2, b2), in which the squares of a and b count 2.15 times.
 * Accepts: writes the distance. Refuses: COMPONENT.
 */
uint32_t badge_oklab_sqdist(float l1, float a1, float b1, float l2, float a2, float b2, float *distance);

/*
 * The threshold of an ordered kind at column x and row y, both reduced to the size of the kind's matrix; it lies between 0
 * and 1.
 * Accepts: writes the threshold. Refuses: KIND_OR_SHIFT (the kind), RETIRED_KIND, NO_MATRIX.
 */
uint32_t badge_ordered_threshold(uint32_t kind, uint32_t x, uint32_t y, float *threshold);

/*
 * How many candidates beside the nearest are considered for a mix: max * shift / 16, rounded with halves up, at least 1 and
 * at most 16. max is the number of colours of a palette or of a tile, and may be any number. The shift is 3 to 6.
 * Accepts: writes the width. Refuses: KIND_OR_SHIFT (the shift).
 */
uint32_t badge_bracket_width(uint32_t shift, uint64_t max, uint64_t *width);

/*
 * How far the colour (r, g, b) lies on the way from (r1, g1, b1), at 0, to (r2, g2, b2), at 1; 0 where the two are the same.
 * Where clamp is not 0 the share is clamped to 0..1, and a minus zero stays one. It never refuses.
 */
float badge_lerp(uint8_t r1, uint8_t g1, uint8_t b1, uint8_t r2, uint8_t g2, uint8_t b2,
                 uint8_t r, uint8_t g, uint8_t b, uint32_t clamp);

/*
 * The lookups below choose from a list of 1 to 65,536 candidates, numbered from 0. It is lent as three buffers that are only
 * read: reduced and normalized hold four bytes an entry, oklab three floats an entry. They choose for the colour (r, g, b),
 * by squared distance in Oklab. They are refused with LENGTH where the three lengths do not belong to one number of entries,
 * with ENTRIES where that number is 0 or above 65,536, and with COMPONENT where some component of oklab is not from -2 to 2.
 */

/*
 * The entry that is nearest to the colour, the first of equals.
 * Accepts: writes its position. Refuses: LENGTH, ENTRIES, COMPONENT.
 */
uint32_t badge_nearest(const uint8_t *reduced, badge_length reduced_len,
                       const uint8_t *normalized, badge_length normalized_len, const float *oklab, badge_length oklab_len,
                       uint8_t r, uint8_t g, uint8_t b, uint32_t *position);

/*
 * The nearest entry, and a second that mixes well with it to the colour. Considered are the other entries that are nearest
 * to the first, at most width of them (a width below 1 counts as 1, one above 16 as 16); an entry of the same colour is
 * another entry. Of those that the colour lies beside (a share from 0 to 1, see badge_lerp) the one whose mix comes nearest
 * to the colour is taken, the first of equals; if there is none, the first of all considered.
 * Accepts: writes the positions of the first and the second. A list of one entry has no second: then both are the same.
 * Refuses: LENGTH, ENTRIES, COMPONENT.
 */
uint32_t badge_nearest_two(const uint8_t *reduced, badge_length reduced_len,
                           const uint8_t *normalized, badge_length normalized_len, const float *oklab, badge_length oklab_len,
                           uint8_t r, uint8_t g, uint8_t b, uint64_t width, uint32_t *first, uint32_t *second);

/*
 * The two entries that an ordered dither alternates between for the colour: those of badge_nearest_two, the darker one
 * first, and the share of the lighter one in the mix, from 0 to 1. A list of one entry gives that entry twice, and 0.
 * Accepts: writes the two reduced colours into dark and light, four bytes each, the share behind ratio, and the positions of
 * the two entries behind dark_position and light_position. Two entries of the same colour have a position each.
 * Refuses: LENGTH (also where dark or light is not 4 long), ENTRIES, COMPONENT.
 */
uint32_t badge_ordered_bracket(const uint8_t *reduced, badge_length reduced_len,
                               const uint8_t *normalized, badge_length normalized_len,
                               const float *oklab, badge_length oklab_len, uint8_t r, uint8_t g, uint8_t b, uint64_t width,
                               uint8_t *dark, badge_length dark_len, uint8_t *light, badge_length light_len, float *ratio,
                               uint32_t *dark_position, uint32_t *light_position);

/*
 * Which of two colours stands at column x and row y: light, if the two differ in some byte and ratio exceeds the threshold
 * of the kind there, and else dark. ratio may be any float; a NaN exceeds nothing.
 * Accepts: writes the colour into chosen, four bytes. For the colours of badge_ordered_bracket, the entry chosen is the one at
 * dark_position where chosen equals dark, and else the one at light_position.
 * Refuses: KIND_OR_SHIFT (the kind), RETIRED_KIND, LENGTH (dark, light or chosen is not 4 long), NO_MATRIX (also where the two
 * colours are the same).
 */
uint32_t badge_pick(const uint8_t *dark, badge_length dark_len, const uint8_t *light, badge_length light_len, float ratio,
                    uint32_t kind, uint32_t x, uint32_t y, uint8_t *chosen, badge_length chosen_len);

/*
 * Pictures lie row by row, four bytes a pixel. The caller lends two tables of 256 bytes: reduction gives a console's own
 * value for each channel value, scale the value from 0 to 255 for each of the console's. Normalising sends all four bytes
 * through the scale table. shift and reducing are those of the console's mode. A pixel reduces so:
 *
 * BADGE_BY_ALPHA, shift 3, 4 or 5. A pixel whose alpha is below 128 is transparent. Any other reduces to its red, green and
 * blue through the reduction table, with alpha 255. opaque is empty.
 *
 * BADGE_GREY, shift 5 or 6. A pixel reduces to a grey: the luma of its opaque pixel through the reduction table, for red,
 * green and blue alike, with alpha 255. Of red r, green g and blue b the luma is the original's:
 *
 *     (r / 255 * 0.2126 + g / 255 * 0.7152 + b / 255 * 0.0722) * 255
 *
 * in floats, the factors too, in C's order and with each step rounded to the nearest float; then held to 0..255, and cut to a
 * byte, the whole number below.
 *
 * BADGE_OPAQUE_COLOR, shift 6. A pixel reduces to red, green and blue of its opaque pixel through the reduction table, with
 * alpha 255.
 *
 * The opaque pixels are lent for the last two, in opaque, four bytes for each of pixels. What the original takes there is its
 * opaque_threshold of the pixel: the pixel itself, or four zeros where its alpha is below 128. But any bytes will do, and no
 * alpha of theirs is read. So no pixel is transparent then, whatever its alpha in either buffer. The reduced colour alone comes
 * from opaque; the colour that is dithered is still the one in pixels. Both are only read, and may be the same memory.
 *
 * A diffusing kind takes three error cells a pixel, for red, green and blue, 6 bytes in all; other kinds take none. What is
 * lent may hold anything: every cell starts at 0. On acceptance a cell holds the error that earlier pixels passed on to its
 * pixel, counted in sixteenths of a channel's step: a whole number from -4,080 to 4,080, which is 255 steps either way.
 */

/*
 * The candidates of a picture: the different reduced colours of its pixels that are not transparent, ascending by red,
 * green, blue and alpha. The caller lends room for 0 to 65,536 of them: places takes the reduced colours, oklab the Oklab
 * colours of their normalised forms.
 *
 * Lengths: reduction and scale 256; pixels 4 a pixel; opaque 4 a pixel, but 0 with BADGE_BY_ALPHA; places 4 a place; oklab
 * 3 a place. Only places and oklab are written.
 * Accepts: writes the candidates and their Oklab colours to the front of places and oklab, and how many they are behind
 * count. Places after them are as they were, in both.
 * Refuses: KIND_OR_SHIFT (shift and reducing), SIZE, LENGTH (also for more than 65,536 places), TOO_MANY_CANDIDATES. After
 * TOO_MANY_CANDIDATES all of places is 0; oklab and what is behind count are as they were.
 */
uint32_t badge_candidate_colors_in(uint32_t shift, uint32_t reducing, uint32_t width, uint32_t height,
                                   const uint8_t *reduction, badge_length reduction_len,
                                   const uint8_t *scale, badge_length scale_len,
                                   const uint8_t *pixels, badge_length pixels_len,
                                   const uint8_t *opaque, badge_length opaque_len, uint8_t *places, badge_length places_len,
                                   float *oklab, badge_length oklab_len, uint32_t *count);

/*
 * Dithers a picture to a palette of 1 to 256 reduced colours. Each pixel that is not transparent chooses an entry: with
 * BADGE_OFF the nearest; with an ordered kind one of the two of badge_ordered_bracket, as badge_pick does, where x and y
 * count from the picture's corner and the width is badge_bracket_width of the shift and the number of entries; with a
 * diffusing kind the nearest to the colour with the error that earlier pixels passed on to it. A picture without pixels is
 * accepted.
 *
 * Lengths: reduction and scale 256; palette 4 an entry; pixels and out 4 a pixel; opaque 4 a pixel, but 0 with BADGE_BY_ALPHA;
 * indices 1 a pixel; cells 3 a pixel for a diffusing kind, else 0. Only indices, out and cells are written.
 * Accepts: writes into indices the position of the first entry that equals the colour chosen, and into out that colour,
 * normalised; a transparent pixel gets 0 and four zeros. cells then holds the error that was passed on to each pixel,
 * transparent ones too, in sixteenths.
 * Refuses: KIND_OR_SHIFT, RETIRED_KIND, SIZE, LENGTH, ENTRIES (the palette).
 */
uint32_t badge_quantize_pixels(uint32_t shift, uint32_t reducing, uint32_t kind, uint32_t width, uint32_t height,
                               const uint8_t *reduction, badge_length reduction_len,
                               const uint8_t *scale, badge_length scale_len,
                               const uint8_t *palette, badge_length palette_len,
                               const uint8_t *pixels, badge_length pixels_len, const uint8_t *opaque, badge_length opaque_len,
                               uint8_t *indices, badge_length indices_len, uint8_t *out, badge_length out_len,
                               int16_t *cells, badge_length cells_len);

/*
 * Dithers a picture to its own candidates (see badge_candidate_colors_in), and judges its tiles. The picture is a part of a
 * larger one, at column origin_x and row origin_y: patterns are laid over the larger one. Each pixel that is not transparent
 * chooses a candidate as in badge_quantize_pixels, with the limit in the place of the number of entries. Where has_zero is
 * not 0, a pixel whose reduced red, green and blue are those of colour zero (zero_r, zero_g, zero_b; zero_a plays no part)
 * keeps its reduced colour and passes no error on. With opaque pixels that is the colour that they reduce to.
 *
 * Tiles of tile_width and tile_height are laid from the picture's corner, numbered row by row from 0; those at the right and
 * lower edge may be cut short. A tile is over its limit if its pixels that are not transparent have more different chosen
 * colours than that.
 *
 * Lengths: reduction and scale 256; pixels and out 4 a pixel; opaque 4 a pixel, but 0 with BADGE_BY_ALPHA; places 4 a place,
 * for 0 to 65,536 of them; oklab 3 a place; cells 3 a pixel for a diffusing kind, else 0. Only places, oklab, out and cells are
 * written.
 * Accepts: writes the candidates to the front of places and oklab, as badge_candidate_colors_in does, the chosen colours,
 * normalised, into out (four zeros for a transparent pixel), and how many candidates there are behind count. cells then holds
 * the error that was passed on to each pixel, transparent ones and those of colour zero too, in sixteenths. What is behind
 * tile is as it was.
 * Refuses: KIND_OR_SHIFT, RETIRED_KIND, SIZE, LENGTH (also for more than 65,536 places), TILES, TOO_MANY_CANDIDATES,
 * TILE_OVER. After TOO_MANY_CANDIDATES all of places is 0 and the rest as it was. After TILE_OVER places, oklab and what is
 * behind count are as on acceptance, out and cells are all 0, and the number of the first tile over its limit is behind tile.
 */
uint32_t badge_dither_to_mode(uint32_t shift, uint32_t reducing, uint32_t kind, uint32_t width, uint32_t height,
                              uint32_t origin_x, uint32_t origin_y, uint32_t tile_width, uint32_t tile_height, uint32_t limit,
                              uint32_t has_zero, uint8_t zero_r, uint8_t zero_g, uint8_t zero_b, uint8_t zero_a,
                              const uint8_t *reduction, badge_length reduction_len,
                              const uint8_t *scale, badge_length scale_len,
                              const uint8_t *pixels, badge_length pixels_len, const uint8_t *opaque, badge_length opaque_len,
                              uint8_t *places, badge_length places_len, float *oklab, badge_length oklab_len,
                              uint8_t *out, badge_length out_len,
                              int16_t *cells, badge_length cells_len, uint32_t *count, uint32_t *tile);

/*
 * The calls below read and write PAM files, in the layout of Netpbm's document "pam".
 *
 * What is read. A file begins with the line "P7", of just these two bytes. Then come these lines, each of them once, in any
 * order but for ENDHDR, which is the last:
 *
 *     WIDTH n
 *     HEIGHT n
 *     MAXVAL 255
 *     DEPTH 4                  or 3
 *     TUPLTYPE RGB_ALPHA       or RGB, with DEPTH 3
 *     ENDHDR
 *
 * Each ends with a newline (byte 10), the last one too. A number is decimal digits without a sign, however many; zeros may
 * stand in front. White space is tab, vertical tab, form feed, carriage return and blank. At least one of them stands between
 * the two words of a line, and any number before the first and after the last. Among these lines there may be any number of
 * others that are white space alone, and of comments, whose very first byte is "#". Nothing else is taken. After the header
 * come the pixels, row by row, four bytes each or three, and nothing after them.
 *
 * What is refused, in this order. PAM_HEADER: some line is not of this form, one is missing or there twice, or a side is 0,
 * whatever the other is. SIZE: the picture is too large. PAM_PIXELS: what comes after the header is not width * height * DEPTH
 * bytes long (a second picture in the file is left over). LENGTH: a buffer that is lent has another length than is needed.
 * Nothing is written then, not behind width, height and length either.
 *
 * What is written. There is one form: the lines "P7", "WIDTH n", "HEIGHT n", "DEPTH 4", "MAXVAL 255", "TUPLTYPE RGB_ALPHA" and
 * "ENDHDR", in this order, with one blank in a line and no zeros in front, and then the pixels as they are. Reading it gives
 * the same size and pixels.
 */

/*
 * The size of the picture in a PAM file, which tells how much to lend to badge_read_pam.
 * Accepts: writes the width and the height. Refuses: PAM_HEADER, SIZE, PAM_PIXELS.
 */
uint32_t badge_pam_size(const uint8_t *file, badge_length file_len, uint32_t *width, uint32_t *height);

/*
 * Reads a PAM file. Lengths: pixels 4 a pixel, of the size that badge_pam_size gives.
 * Accepts: writes the pixels, each with alpha 255 where the file has RGB, and the width and the height.
 * Refuses: PAM_HEADER, SIZE, PAM_PIXELS, LENGTH (pixels).
 */
uint32_t badge_read_pam(const uint8_t *file, badge_length file_len, uint8_t *pixels, badge_length pixels_len,
                        uint32_t *width, uint32_t *height);

/*
 * How many bytes the PAM file of a picture has, which tells how much to lend to badge_write_pam.
 * Accepts: writes the length. Refuses: PAM_HEADER (a side is 0, whatever the other is), SIZE.
 */
uint32_t badge_pam_length(uint32_t width, uint32_t height, uint64_t *length);

/*
 * Writes a picture as a PAM file. Lengths: pixels 4 a pixel; file as badge_pam_length says. Only file is written.
 * Accepts: fills the file. Refuses: PAM_HEADER (a side is 0, whatever the other is), SIZE, LENGTH.
 */
uint32_t badge_write_pam(uint32_t width, uint32_t height, const uint8_t *pixels, badge_length pixels_len,
                         uint8_t *file, badge_length file_len);

#ifdef __cplusplus
}
#endif

#endif
