/*
 * What is measured by stack.c: the calls of the C interface (stack_calls.c), or the lookups over records (stack_records.c).
 * One of the two is linked.
 */
#ifndef STACK_H
#define STACK_H

#include <stdbool.h>
#include <stddef.h>
#include <stdint.h>

/* The bounds of document 02's third request: a lookup takes 1 KiB at most, any other call 16 KiB. */
enum { LOOKUP = 1024, CALL = 16384 };

typedef struct {
    const char *name;
    size_t bound;
    void (*call)(void);
    void (*over)(bool by_steps); /* measures the call over inputs of every path, small ones where it goes by steps */
} Measured;

extern const Measured measured[];
extern const size_t measured_count;

/* Makes what is lent to the calls. */
void make_inputs(void);

/* Measures the call as things stand. */
void measure(bool by_steps);

#endif
