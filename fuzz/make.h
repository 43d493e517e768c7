/*
 * Arbitrary arguments: mostly ones that a call accepts, and then each of them wrong now and again.
 */
#ifndef MAKE_H
#define MAKE_H

#include <stdbool.h>
#include <stddef.h>
#include <stdint.h>

#include "lent.h"

typedef struct {
    uint32_t shift, reducing;
} Pairing;

typedef struct {
    uint32_t width, height;
    size_t pixels; /* how many are lent; the sizes may say something else */
} Size;

uint32_t make_kind(void);    /* now and again a retired one, or a number that has none */
uint32_t make_shift(void);
Pairing make_pairing(void);  /* a shift and a reduction that goes with it, or now and again any two */
uint32_t make_place(void);   /* a column or row, anywhere */
float make_component(void);  /* of an Oklab colour */
float make_float(void);      /* any at all */
uint64_t make_width(void);   /* of a shortlist */
Size make_size(void);
uint32_t make_origin(uint32_t side);
uint32_t make_side(void);    /* of a tile */
uint32_t make_limit(void);

/* The right length, or now and again another. */
size_t make_length(size_t right);

/* How many entries a palette or a list has, where so many are allowed. */
size_t make_entries(size_t most);

/* Lent tables, pixels of a picture, a palette. */
Lent *make_reduction(uint32_t shift);
Lent *make_scale(uint32_t shift);
Lent *make_pixels(size_t pixels);
Lent *make_opaque(uint32_t reducing, size_t count, Lent *pixels); /* at times the very memory of the pixels */
Lent *make_palette(const Lent *reduction);

/* A lent PAM file, right as a rule, and how many pixels of which size it means to have. */
Lent *make_pam(Size *size);

/* Lent Oklab colours. */
Lent *make_oklab(size_t len);

#endif
