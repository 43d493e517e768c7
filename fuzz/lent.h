/*
 * Buffers that are lent to a call, of exactly the length that the call is told.
 *
 * In the guarded way a buffer ends at a page that may not be touched, or begins after one, and what a call should only read is
 * given to it through a read-only view of the memory: an access of the archive outside a buffer, or a write into an input,
 * ends the program at once. A buffer that ends there begins where its length puts it, at a multiple of its elements' size and
 * often of no more. In the heap way each is a block of malloc, for checkers that watch the heap.
 */
#ifndef LENT_H
#define LENT_H

#include <stdbool.h>
#include <stddef.h>
#include <stdint.h>

typedef struct {
    void *at;      /* what the call is given; may be null where the length is 0 */
    void *fill;    /* the same memory, to be filled and looked at */
    void *was;     /* a copy from before the call */
    size_t len;    /* in elements */
    size_t bytes;
} Lent;

void lent_begin(bool guarded);

/* A buffer of len elements of the given size, which the call only reads, or may write. It holds rubbish at first. */
Lent *lend_to_read(size_t len, size_t size);
Lent *lend_to_write(size_t len, size_t size);

/* Copies all that is lent, as it stands before the call. */
void lent_remember(void);

/* Puts all that is lent back as it stood before a call, so that the call can be made again. What the first one left is
 * remembered in its place: what is unchanged then is what both of them left. */
void lent_again(void);

/* Frees all that is lent. */
void lent_return(void);

/* Whether every buffer but those named is as it was; the list ends with a null pointer. */
bool unchanged_but(Lent *const *named);
bool is_unchanged(const Lent *lent);
bool is_zero(const Lent *lent);

/* Whether the elements from the given one on are as they were. */
bool is_unchanged_from(const Lent *lent, size_t first, size_t size);

#endif
