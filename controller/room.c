/*
 * Reads lines of the recorded list; see room.h. A line that is not of its form has no tokens, and its case differs.
 */
#include "room.h"

#include <string.h>

enum { TOKENS = 31, COUNT = 62, BYTES = 64, MALFORMED = 255 };

uint8_t room[ROOM];

void clear_room(void)
{
    room[COUNT] = 0;
}

static size_t end_of(size_t k)
{
    return (size_t)room[2 * k] << 8 | room[2 * k + 1];
}

static size_t start_of(size_t k)
{
    return k == 0 ? BYTES : end_of(k - 1);
}

/* The value of a hexadecimal digit, 16 where it is none. */
static unsigned digit(uint8_t c)
{
    if (c >= '0' && c <= '9')
        return c - '0';
    return c >= 'a' && c <= 'f' ? c - 'a' + 10u : 16;
}

/* Reads the digits of a token into the room from a place on. Answers where they end there, 0 where they are malformed. */
static size_t read_digits(const uint8_t *text, size_t len, size_t at)
{
    if (len == 1 && text[0] == '-') /* no bytes */
        return at;
    if (len % 2 != 0 || len / 2 > ROOM - at)
        return 0;
    for (size_t i = 0; i < len; i += 2) {
        unsigned high = digit(text[i]), low = digit(text[i + 1]);
        if (high > 15 || low > 15)
            return 0;
        room[at++] = (uint8_t)(high << 4 | low);
    }
    return at;
}

static void read_token(const uint8_t *text, size_t len)
{
    size_t k = room[COUNT], end = k < TOKENS ? read_digits(text, len, start_of(k)) : 0;
    if (end == 0) {
        room[COUNT] = MALFORMED;
        return;
    }
    room[2 * k] = (uint8_t)(end >> 8);
    room[2 * k + 1] = (uint8_t)end;
    room[COUNT] = (uint8_t)(k + 1);
}

void read_tokens(const uint8_t *line, size_t len)
{
    for (size_t at = 1, end; at < len; at = end) {
        for (end = at + 1; end < len && line[end] != ' ';)
            end++;
        read_token(line + at + 1, end - at - 1);
    }
}

bool has_tokens(size_t count)
{
    return room[COUNT] == count;
}

Part part(size_t k)
{
    return k < room[COUNT] && room[COUNT] <= TOKENS ? (Part){room + start_of(k), end_of(k) - start_of(k)} : (Part){room, 0};
}

static uint64_t number_of(Part p)
{
    uint64_t n = 0;
    for (size_t i = 0; i < p.len; i++)
        n = n << 8 | p.bytes[i];
    return n;
}

uint64_t number(size_t k)
{
    return number_of(part(k));
}

uint32_t word(size_t k)
{
    return (uint32_t)number(k);
}

uint8_t byte_of(size_t k, size_t i)
{
    Part p = part(k);
    return i < p.len ? p.bytes[i] : 0;
}

size_t floats_of(size_t k, float *out, size_t most)
{
    Part p = part(k);
    if (p.len / 4 > most)
        return 0;
    for (size_t i = 0; i < p.len / 4; i++) {
        uint32_t bits = (uint32_t)number_of((Part){p.bytes + 4 * i, 4});
        memcpy(out + i, &bits, 4);
    }
    return p.len / 4;
}

size_t sixteenths_of(size_t k, int16_t *out, size_t most)
{
    Part p = part(k);
    if (p.len / 2 > most)
        return 0;
    for (size_t i = 0; i < p.len / 2; i++) {
        uint16_t bits = (uint16_t)number_of((Part){p.bytes + 2 * i, 2});
        memcpy(out + i, &bits, 2);
    }
    return p.len / 2;
}
