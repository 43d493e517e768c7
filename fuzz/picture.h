/*
 * What the three calls on pictures share: a picture with its tables and opaque pixels, its reduced colours and the rooms for
 * its candidates, with what they have to hold afterwards, worked out anew, a second call with other alphas, and error cells.
 */
#ifndef PICTURE_H
#define PICTURE_H

#include <stdbool.h>
#include <stddef.h>
#include <stdint.h>

#include "lent.h"
#include "make.h"

typedef struct {
    uint32_t shift, reducing;
    Size size;
    Lent *reduction, *scale, *pixels, *opaque; /* the last two may be the same */
} Picture;

Picture make_picture(void);

/* What the three calls on pictures read alike has a wrong length. The size is within its bounds. */
bool picture_wrong(const Picture *p);

/* The reduced colour of a pixel as a number that sorts as colours do; 0 where it is transparent. The lengths are right. */
uint32_t reduced_key(const Picture *p, size_t pixel);

/* The colour of a number, which is that of a reduced one. */
typedef struct {
    uint8_t rgba[4];
} Color;

Color color_of(uint32_t key);

/* Lends all as before the first call, but with other alphas where these play no part: those of opaque pixels never do, and
 * those of the pixels only where a picture is reduced by alpha, by being below 128. A second call has to answer as the first
 * did, and to leave the same. */
void change_alphas(const Picture *p);
void check_again(const Picture *p, uint32_t number, uint32_t again);

typedef struct {
    Lent *places, *oklab;
    uint32_t *list;
    size_t count; /* how many candidates there are, where the picture's lengths are right */
} Rooms;

/* Room for a picture's candidates: as a rule enough, at times one too few, and now and again up to the bound or over. The
 * caller frees the list. */
Rooms make_rooms(const Picture *p);

/* The number of the calls that have rooms for candidates, up to a wrong length; size and length may be wrong elsewhere. A call
 * that takes no kind is as one with BADGE_OFF. */
uint32_t rooms_number(const Picture *p, const Rooms *rooms, uint32_t kind, bool size, bool length);

/* More candidates than places. */
bool overflows(const Rooms *rooms);

/* What too many candidates leave. */
void check_overflow(const Rooms *rooms);

/* The candidates and their Oklab colours stand in front, and what is after them is as it was. */
void check_rooms(const Rooms *rooms, const Lent *scale);

/* Cells to lend to a picture for its kind. They hold any sixteen bits, the ends of a cell's width and of its bounds often among
 * them: what is lent plays no part. */
Lent *make_cells(uint32_t kind, size_t pixels);

/* Error cells count sixteenths, and none is further than 255 from 0. */
void check_cells(const Lent *lent);

#endif
