/*
 * The calls whose stack is measured: for the table of the stack (board.c) and the ways to it (measure.S). They are those of the
 * C interface, or the one way to the lookups over records (records.c). The calls on pictures, which name their reduction as
 * their second argument, have a row for each; the first has all that name another, too.
 */
#ifndef CALLS_H
#define CALLS_H

#ifdef RECORDS
#define EACH_CALL(DO, DO_REDUCING) DO(record_stack)
#else
#define EACH_CALL(DO, DO_REDUCING)                                                                                             \
    DO(badge_to_oklab)                                                                                                         \
    DO(badge_oklab_sqdist)                                                                                                     \
    DO(badge_ordered_threshold)                                                                                                \
    DO(badge_bracket_width)                                                                                                    \
    DO(badge_lerp)                                                                                                             \
    DO(badge_nearest)                                                                                                          \
    DO(badge_nearest_two)                                                                                                      \
    DO(badge_ordered_bracket)                                                                                                  \
    DO(badge_pick)                                                                                                             \
    DO_REDUCING(badge_candidate_colors_in)                                                                                     \
    DO_REDUCING(badge_quantize_pixels)                                                                                         \
    DO_REDUCING(badge_dither_to_mode)                                                                                          \
    DO(badge_pam_size)                                                                                                         \
    DO(badge_read_pam)                                                                                                         \
    DO(badge_pam_length)                                                                                                       \
    DO(badge_write_pam)
#endif

#endif
