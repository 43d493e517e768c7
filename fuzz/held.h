/*
 * How a call is held to what it has to do: which call it is, the failures that name it, and a look into what is lent.
 */
#ifndef HELD_H
#define HELD_H

#include <stdbool.h>
#include <stddef.h>
#include <stdint.h>

#include "lent.h"

/* The call that is being made. */
extern uint64_t seed, number_of_call;
extern const char *name_of_call;

/* Ends the program with a line that names the call. */
void fail(const char *what);
void check(bool holds, const char *what);

/* A list of lent buffers, as unchanged_but takes it. */
#define NAMED(...) ((Lent *const[]){__VA_ARGS__, NULL})

/* The number is the one expected; a refusal leaves all as it was, and acceptance all but the buffers named. */
uint32_t held(uint32_t number, uint32_t expected, Lent *const *written);

/* The value that a lent pointer to a single one has behind it. */
float float_in(const Lent *lent);
uint32_t u32_in(const Lent *lent);

/* Whether no entry before entry k of a list, each of so many bytes, is the same. */
bool is_first(const Lent *list, size_t k, size_t bytes);

#endif
