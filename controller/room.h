/*
 * A line of the recorded list as tokens, as many as crates/recorded has in its `Room`, in a room of bytes: the two at 2 * k say
 * where token k ends, byte 62 how many there are (255 where the line is malformed), and the bytes of the tokens lie from byte
 * 64 on.
 */
#ifndef ROOM_H
#define ROOM_H

#include <stdbool.h>
#include <stddef.h>
#include <stdint.h>

enum { ROOM = 32768 };

extern uint8_t room[ROOM];

typedef struct {
    const uint8_t *bytes;
    size_t len;
} Part;

/* No tokens. */
void clear_room(void);

/* Reads the tokens of a line, which stand after its letter, behind those that are there. */
void read_tokens(const uint8_t *line, size_t len);

/* Whether there are so many tokens, and no token is malformed. */
bool has_tokens(size_t count);

/* Token k, and the number that it is, most significant byte first. */
Part part(size_t k);
uint64_t number(size_t k);
uint32_t word(size_t k);

/* Byte i of token k, 0 where there is none. */
uint8_t byte_of(size_t k, size_t i);

/* Copies the floats of token k, or its error cells, which are two bytes each and may be negative. Answers how many there are,
 * or none where they are more than `most`. */
size_t floats_of(size_t k, float *out, size_t most);
size_t sixteenths_of(size_t k, int16_t *out, size_t most);

#endif
