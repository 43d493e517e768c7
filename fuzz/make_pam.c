/*
 * Arbitrary PAM files, see make.h: lines in any order with comments, blank lines and white space of every sort, now and again a
 * name, a value or a line that is not right, or one byte changed, cut or added; and bytes that are nothing at all.
 */
#include "make.h"

#include <inttypes.h>
#include <stdio.h>
#include <stdlib.h>
#include <string.h>

#include "held.h"
#include "random.h"

#define COUNT(array) (sizeof(array) / sizeof((array)[0]))
#define ONE_OF(array) ((array)[below(COUNT(array))])

/* ---- the file as it grows */

static struct {
    uint8_t *at;
    size_t len, room;
    bool plain; /* one blank in a line and nothing between the lines */
} made;

/* Makes room for so many bytes before one, or at the end. */
static uint8_t *open_gap(size_t from, size_t bytes)
{
    if (made.len + bytes > made.room) {
        made.room = 2 * (made.len + bytes);
        made.at = realloc(made.at, made.room);
        if (made.at == NULL)
            fail("no memory");
    }
    memmove(made.at + from + bytes, made.at + from, made.len - from);
    made.len += bytes;
    return made.at + from;
}

static void put_byte(uint8_t byte)
{
    *open_gap(made.len, 1) = byte;
}

static void put(const char *text)
{
    for (; *text != 0; text++)
        put_byte((uint8_t)*text);
}

/* White space, with a byte among it now and again that is none. */
static void put_white(size_t least)
{
    static const uint8_t white[] = {'\t', '\v', '\f', '\r', ' '}, other[] = {0, 8, 14, 28, 31, 127, 133, 160};
    for (size_t left = made.plain ? least : least + below(3); left > 0; left--)
        put_byte(once_in(300) ? ONE_OF(other) : made.plain ? ' ' : ONE_OF(white));
}

/* ---- lines */

static const char odd_bytes[] = "\t\v\f\r \n\n#0123459PWHDMTERGB_A\xa0\x85-+"; /* and the 0 after them */

static void put_line(const char *name, const char *value)
{
    put_white(0);
    put(name);
    put_white(*value != 0);
    put(value);
    put_white(0);
    put_byte('\n');
}

static void put_comment(void)
{
    put_byte('#');
    for (size_t left = once_in(40) ? below(1000) : below(12); left > 0; left--) {
        uint8_t byte = random_byte();
        put_byte(byte == '\n' ? 0 : byte);
    }
}

/* Lines that say nothing. */
static void put_nothing(void)
{
    while (!made.plain && once_in(4)) {
        if (once_in(2))
            put_white(0);
        else
            put_comment();
        put_byte('\n');
    }
}

static const char *const odd_names[] = {"", "WIDTHS", "HEIGH", "width", "DEPTH", "ENDHDR", "TUPLTYPE", "#", " #", "\r#", "P7"};
static const char *const odd_values[] = {
    "", "0", "00", "1", "3", "4", "255", "256", "4096", "4097", "65536", "+1", "-1", "1 1", "1.", "0x1", "1#", "1\x85",
    "9999999999999999999999999999999999999999", "RGB", "RGB_ALPHA", "RGB_ALPHA RGB", "RGB _ALPHA", "RGBA", "rgb", "RGB\xa0"};

enum { LINES = 5 };

typedef struct {
    char name[80], value[80];
} Line;

/* A number with zeros in front, or now and again one that only its lowest 8, 16, 32 or 64 bits make the same. */
static void set_number(Line *line, const char *name, uint32_t number)
{
    static const uint64_t wraps[] = {256, 65536, (uint64_t)1 << 32};
    int zeros = made.plain ? 0 : once_in(20) ? 60 : (int)below(7);
    strcpy(line->name, name);
    if (!once_in(60))
        snprintf(line->value, sizeof line->value, "%0*" PRIu32, zeros, number);
    else if (number < 384 && once_in(4))
        snprintf(line->value, sizeof line->value, "18446744073709551%" PRIu32, 616 + number);
    else
        snprintf(line->value, sizeof line->value, "%" PRIu64, ONE_OF(wraps) + number);
}

/* Another word, or the same with its last byte cut, with one more, or with a letter of the other case. */
static void spoil_word(char *word)
{
    size_t len = strlen(word);
    switch (below(4)) {
    case 0: word[len - 1] = 0; break;
    case 1: memcpy(word + len, (char[]){ONE_OF(odd_bytes), 0}, 2); break;
    case 2: word[below(len)] ^= 32; break;
    default: strcpy(word, ONE_OF(odd_values)); break;
    }
}

/* The five lines in any order; now and again one is wrong, is not there or is there twice, or there is another. */
static void put_lines(const Size *size, bool alpha)
{
    Line lines[LINES] = {{"TUPLTYPE", "RGB_ALPHA"}};
    if (!alpha)
        strcpy(lines[0].value, "RGB");
    set_number(&lines[1], "WIDTH", size->width);
    set_number(&lines[2], "HEIGHT", size->height);
    set_number(&lines[3], "DEPTH", alpha ? 4 : 3);
    set_number(&lines[4], "MAXVAL", 255);
    for (size_t left = LINES; left > 0; left--) {
        size_t k = below(left);
        if (once_in(50))
            spoil_word(once_in(3) ? lines[k].name : lines[k].value);
        for (size_t times = once_in(100) ? 2 * below(2) : 1; times > 0; times--) {
            put_nothing();
            put_line(lines[k].name, lines[k].value);
        }
        if (once_in(100))
            put_line(ONE_OF(odd_names), ONE_OF(odd_values));
        lines[k] = lines[left - 1];
    }
    put_nothing();
}

/* ---- files */

/* Changes, cuts or adds a byte, or cuts all after one: in the header as a rule, and often at its end. */
static void spoil_file(size_t header)
{
    size_t from = once_in(8) ? below(made.len + 1) : once_in(4) ? header - below(4) : below(header);
    uint8_t byte = once_in(2) ? random_byte() : (uint8_t)ONE_OF(odd_bytes);
    switch (below(4)) {
    case 0: *open_gap(from, 1) = byte; break;
    case 1: made.len = from; break;
    case 2: if (from < made.len) memmove(made.at + from, made.at + from + 1, --made.len - from); break;
    default: if (from < made.len) made.at[from] = byte; break;
    }
}

/* Bytes, or words of a header, without any order. */
static void put_rubbish(void)
{
    static const char *const words[] = {"P7\n", "WIDTH", "HEIGHT", "DEPTH", "MAXVAL", "TUPLTYPE", "ENDHDR", " ", "\n", "\n",
                                        "1", "3", "255", "RGB", "#", "0", "\t", "1\n"};
    bool bytes = once_in(2);
    if (once_in(2))
        put("P7\n");
    for (uint64_t left = below(60); left > 0; left--)
        if (bytes)
            put_byte(random_byte());
        else
            put(ONE_OF(words));
}

static void put_file(const Size *size)
{
    static const char *const magics[] = {"P6\n", "P7 \n", "P7\r\n", "P7", "p7\n", " P7\n", "\nP7\n", ""};
    bool alpha = once_in(2);
    put(once_in(80) ? ONE_OF(magics) : "P7\n");
    put_lines(size, alpha);
    put_line("ENDHDR", once_in(120) ? ONE_OF(odd_values) : "");
    size_t header = made.len, bytes = make_length((alpha ? 4 : 3) * size->pixels);
    uint8_t *pixels = open_gap(header, bytes);
    for (size_t i = 0; i < bytes; i++)
        pixels[i] = random_byte();
    if (once_in(80)) { /* a second picture, or its beginning */
        uint8_t *second = open_gap(made.len, header);
        memcpy(second, made.at, header);
    }
    if (once_in(5))
        spoil_file(header);
}

Lent *make_pam(Size *size)
{
    *size = make_size();
    made.len = 0;
    made.plain = once_in(2);
    if (once_in(25))
        put_rubbish();
    else
        put_file(size);
    Lent *file = lend_to_read(made.len, 1);
    if (made.len != 0)
        memcpy(file->fill, made.at, made.len);
    return file;
}
