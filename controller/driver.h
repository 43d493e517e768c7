/*
 * The driver's parts: the recorded list (drive.c goes through it, replay.c makes the calls), and calls with larger inputs
 * (larger.c). In the program of the lookups over records, records.c stands in the place of the last two.
 */
#ifndef DRIVER_H
#define DRIVER_H

#include <stdbool.h>
#include <stddef.h>
#include <stdint.h>

/* What can be made of a case. */
typedef enum { SAME, DIFFERS, NO_CALL } Verdict;

/* The line of the case. */
extern const uint8_t *case_line;
extern size_t case_len;

/* Makes the call of a case, whose tokens are in the room, and compares the answer. */
Verdict replay(uint8_t letter);

/* What the cases of the lookups over records are answered by, to be printed. */
extern const char *const records_by;

/* Calls with larger inputs, whose answers are kept for the comparison. Answers whether each had its number. */
bool call_larger(void);

/* Printing. */
void say(const char *text);
void say_number(uint32_t n);

#endif
