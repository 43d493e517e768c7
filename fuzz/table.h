/*
 * The scope document's table of refusals, and those of the requests after it, as tests of their own: what each is said for,
 * except too many candidates and a tile over its limit, which depend on the picture, and what a PAM file's bytes are.
 */
#ifndef TABLE_H
#define TABLE_H

#include <stdbool.h>
#include <stddef.h>
#include <stdint.h>

#include "badge_dither.h"

static inline bool kind_wrong(uint32_t kind)
{
    return kind > BADGE_FLOYD_STEINBERG;
}

/* The stipples, whose numbers are given to no other kind. */
static inline bool is_retired(uint32_t kind)
{
    return kind == BADGE_STIPPLE_V || kind == BADGE_STIPPLE_H;
}

static inline bool is_diffusion(uint32_t kind)
{
    return kind == BADGE_ATKINSON || kind == BADGE_FLOYD_STEINBERG;
}

static inline bool has_matrix(uint32_t kind)
{
    return kind >= BADGE_BAYER_2X2 && kind <= BADGE_LINE_H && !is_retired(kind);
}

/* The number of a call by its kind, where its shift and reduction may not go together besides. A retired kind's comes directly
 * after 1, and before all others. */
static inline uint32_t kind_number(uint32_t kind, bool pairing)
{
    if (kind_wrong(kind) || pairing)
        return BADGE_REFUSED_KIND_OR_SHIFT;
    return is_retired(kind) ? BADGE_REFUSED_RETIRED_KIND : BADGE_ACCEPTED;
}

/* The number of a call that asks a kind for its threshold, where some length may be wrong besides. */
static inline uint32_t matrix_number(uint32_t kind, bool length)
{
    uint32_t number = kind_number(kind, false);
    if (number != BADGE_ACCEPTED)
        return number;
    if (length)
        return BADGE_REFUSED_LENGTH;
    return has_matrix(kind) ? BADGE_ACCEPTED : BADGE_REFUSED_NO_MATRIX;
}

/* The shift of a width that is asked for alone. */
static inline bool shift_wrong(uint32_t shift)
{
    return shift < 3 || shift > 6;
}

/* A reduction that there is not, or one that no mode of this shift has. */
static inline bool pairing_wrong(uint32_t shift, uint32_t reducing)
{
    switch (reducing) {
    case BADGE_BY_ALPHA: return shift < 3 || shift > 5;
    case BADGE_GREY: return shift != 5 && shift != 6;
    case BADGE_OPAQUE_COLOR: return shift != 6;
    default: return true;
    }
}

static inline bool size_wrong(uint32_t width, uint32_t height)
{
    return width > 4096 || height > 4096 || width * height > 1048576;
}

/* The number of a picture that a PAM file has or is to have, but for its bytes. */
static inline uint32_t pam_number(uint32_t width, uint32_t height)
{
    if (width == 0 || height == 0)
        return BADGE_REFUSED_PAM_HEADER;
    return size_wrong(width, height) ? BADGE_REFUSED_SIZE : BADGE_ACCEPTED;
}

static inline bool origin_wrong(uint32_t origin, uint32_t side)
{
    return (uint64_t)origin + side > 4294967295u;
}

/* The lengths of a list do not belong to one number of entries. */
static inline bool list_wrong(size_t reduced, size_t normalized, size_t oklab)
{
    return reduced % 4 != 0 || normalized != reduced || oklab != reduced / 4 * 3;
}

/* The candidate rooms. */
static inline bool rooms_wrong(size_t places, size_t oklab)
{
    return places % 4 != 0 || places / 4 > 65536 || oklab != places / 4 * 3;
}

/* The opaque pixels' bytes: by alpha there are none. */
static inline size_t opaque_length(uint32_t reducing, size_t pixels)
{
    return reducing == BADGE_BY_ALPHA ? 0 : 4 * pixels;
}

/* Error cells: three a pixel where error is passed on. Cells are counted, and not their bytes. */
static inline bool cells_wrong(size_t cells, uint32_t kind, size_t pixels)
{
    return cells != (is_diffusion(kind) ? 3 * pixels : 0);
}

static inline bool entries_wrong(size_t entries, size_t most)
{
    return entries == 0 || entries > most;
}

static inline bool tile_wrong(uint32_t width, uint32_t height, uint32_t limit)
{
    return width < 1 || width > 4096 || height < 1 || height > 4096 || limit > 256;
}

/* Not from -2 to 2; a NaN is not. */
static inline bool component_wrong(float value)
{
    return !(value >= -2.0f && value <= 2.0f);
}

static inline bool some_component_wrong(const float *values, size_t count)
{
    for (size_t i = 0; i < count; i++)
        if (component_wrong(values[i]))
            return true;
    return false;
}

#endif
