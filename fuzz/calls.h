/*
 * The sixteen functions of the C interface, each tried once: makes arbitrary arguments, calls it, holds the number and every
 * buffer to what they have to be, and returns the number.
 */
#ifndef CALLS_H
#define CALLS_H

#include <stdint.h>

/* values.c */
uint32_t try_to_oklab(void);
uint32_t try_oklab_sqdist(void);
uint32_t try_ordered_threshold(void);
uint32_t try_bracket_width(void);
uint32_t try_lerp(void);

/* lookups.c */
uint32_t try_nearest(void);
uint32_t try_nearest_two(void);
uint32_t try_ordered_bracket(void);
uint32_t try_pick(void);

/* pictures.c */
uint32_t try_candidate_colors_in(void);
uint32_t try_quantize_pixels(void);
uint32_t try_dither_to_mode(void);

/* pams.c */
uint32_t try_pam_size(void);
uint32_t try_read_pam(void);
uint32_t try_pam_length(void);
uint32_t try_write_pam(void);

#endif
