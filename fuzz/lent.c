/* Buffers of exact length, between guard pages or on the heap. See lent.h. */
#define _GNU_SOURCE
#include "lent.h"

#include <stdio.h>
#include <stdlib.h>
#include <string.h>
#include <sys/mman.h>
#include <unistd.h>

#include "random.h"

enum { SLOTS = 12 };

static const size_t ROOM = (size_t)16 << 20;
static const size_t PAGE = 4096;

static struct {
    uint8_t *own;       /* read and written */
    uint8_t *read_only; /* the same memory */
} rooms[SLOTS];

static Lent lents[SLOTS];
static size_t used;
static bool guards;

static void give_up(const char *what)
{
    perror(what);
    exit(2);
}

/* A view of a room between two pages that may not be touched. */
static uint8_t *view(int file, int protection)
{
    uint8_t *all = mmap(NULL, ROOM + 2 * PAGE, PROT_NONE, MAP_PRIVATE | MAP_ANONYMOUS, -1, 0);
    if (all == MAP_FAILED)
        give_up("mmap");
    void *room = mmap(all + PAGE, ROOM, protection, MAP_SHARED | MAP_FIXED, file, 0);
    if (room == MAP_FAILED)
        give_up("mmap");
    return room;
}

void lent_begin(bool guarded)
{
    guards = guarded;
    for (size_t i = 0; guarded && i < SLOTS; i++) {
        int file = memfd_create("room", 0);
        if (file < 0 || ftruncate(file, (off_t)ROOM) != 0)
            give_up("memfd_create");
        rooms[i].own = view(file, PROT_READ | PROT_WRITE);
        rooms[i].read_only = view(file, PROT_READ);
        close(file);
    }
}

/* Rubbish: in floats and in error cells, patterns of every kind. */
static void fill_rubbish(uint8_t *at, size_t bytes)
{
    size_t i = 0;
    for (; i + 8 <= bytes; i += 8) {
        uint64_t word = random_bits();
        memcpy(at + i, &word, 8);
    }
    for (; i < bytes; i++)
        at[i] = random_byte();
}

/* Where in a room a buffer lies: at its end or at its beginning. */
static size_t place_in_room(size_t bytes)
{
    return once_in(4) ? 0 : ROOM - bytes;
}

static Lent *lend(size_t len, size_t size, bool writable)
{
    if (used == SLOTS || len > ROOM / size) {
        fputs("more is lent than there is room for\n", stderr);
        exit(2);
    }
    Lent *lent = &lents[used];
    *lent = (Lent){.len = len, .bytes = len * size};
    if (guards) {
        size_t from = place_in_room(lent->bytes);
        lent->fill = rooms[used].own + from;
        lent->at = (writable ? rooms[used].own : rooms[used].read_only) + from;
    } else {
        lent->fill = lent->at = malloc(lent->bytes);
        if (lent->fill == NULL && lent->bytes != 0)
            give_up("malloc");
    }
    used++;
    fill_rubbish(lent->fill, lent->bytes);
    if (len == 0 && once_in(2))
        lent->at = NULL;
    return lent;
}

Lent *lend_to_read(size_t len, size_t size)
{
    return lend(len, size, false);
}

Lent *lend_to_write(size_t len, size_t size)
{
    return lend(len, size, true);
}

void lent_remember(void)
{
    for (size_t i = 0; i < used; i++) {
        lents[i].was = malloc(lents[i].bytes + 1);
        if (lents[i].was == NULL)
            give_up("malloc");
        memcpy(lents[i].was, lents[i].fill, lents[i].bytes);
    }
}

void lent_again(void)
{
    for (size_t i = 0; i < used; i++) {
        uint8_t *now = lents[i].fill, *was = lents[i].was;
        for (size_t k = 0; k < lents[i].bytes; k++) {
            uint8_t left = now[k];
            now[k] = was[k];
            was[k] = left;
        }
    }
}

void lent_return(void)
{
    for (size_t i = 0; i < used; i++) {
        free(lents[i].was);
        if (!guards)
            free(lents[i].fill);
    }
    used = 0;
}

bool is_unchanged_from(const Lent *lent, size_t first, size_t size)
{
    size_t from = first * size;
    return from <= lent->bytes
           && memcmp((uint8_t *)lent->fill + from, (uint8_t *)lent->was + from, lent->bytes - from) == 0;
}

bool is_unchanged(const Lent *lent)
{
    return is_unchanged_from(lent, 0, 1);
}

bool is_zero(const Lent *lent)
{
    const uint8_t *bytes = lent->fill;
    for (size_t i = 0; i < lent->bytes; i++)
        if (bytes[i] != 0)
            return false;
    return true;
}

bool unchanged_but(Lent *const *named)
{
    for (size_t i = 0; i < used; i++) {
        Lent *const *n = named;
        while (*n != NULL && *n != &lents[i])
            n++;
        if (*n == NULL && !is_unchanged(&lents[i]))
            return false;
    }
    return true;
}
