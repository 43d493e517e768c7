/* What a PAM file is. See pam_file.h. */
#include "pam_file.h"

#include <stdbool.h>
#include <stdio.h>
#include <string.h>

#include "badge_dither.h"
#include "table.h"

/* A piece of the file. */
typedef struct {
    const uint8_t *at;
    size_t len;
} Piece;

static Piece without(Piece piece, size_t front)
{
    return (Piece){piece.at + front, piece.len - front};
}

static bool is(Piece piece, const char *word)
{
    return piece.len == strlen(word) && memcmp(piece.at, word, piece.len) == 0;
}

static bool is_white(uint8_t byte)
{
    return memchr("\t\v\f\r ", byte, 5) != NULL;
}

/* The piece without white space around it. */
static Piece trimmed(Piece piece)
{
    while (piece.len != 0 && is_white(piece.at[0]))
        piece = without(piece, 1);
    while (piece.len != 0 && is_white(piece.at[piece.len - 1]))
        piece.len--;
    return piece;
}

/* The first line, without its newline; at is null where no newline is left. */
static Piece first_line(Piece rest)
{
    const uint8_t *end = rest.len != 0 ? memchr(rest.at, '\n', rest.len) : NULL;
    return end != NULL ? (Piece){rest.at, (size_t)(end - rest.at)} : (Piece){NULL, 0};
}

/* The first word of a line that is trimmed. */
static Piece first_word(Piece line)
{
    size_t len = 0;
    while (len < line.len && !is_white(line.at[len]))
        len++;
    return (Piece){line.at, len};
}

/* Whether it is digits alone, and which number: the largest that there is for all that are larger. */
static bool is_number(Piece piece, uint32_t *number)
{
    uint64_t value = 0;
    for (size_t i = 0; i < piece.len; i++) {
        if (piece.at[i] < '0' || piece.at[i] > '9')
            return false;
        value = 10 * value + (piece.at[i] - '0');
        if (value > UINT32_MAX)
            value = UINT32_MAX;
    }
    *number = (uint32_t)value;
    return piece.len != 0;
}

enum { WIDTH, HEIGHT, DEPTH, MAXVAL, TUPLTYPE, NAMES };

static const char *const names[NAMES] = {"WIDTH", "HEIGHT", "DEPTH", "MAXVAL", "TUPLTYPE"};

/* What stands after each name. */
typedef struct {
    bool seen[NAMES];
    Piece value[NAMES];
} Header;

/* Takes a line that says something; false where it is none that a header may have, or is there for the second time. */
static bool take_line(Header *header, Piece line)
{
    Piece name = first_word(line);
    for (size_t k = 0; k < NAMES; k++)
        if (is(name, names[k])) {
            bool again = header->seen[k];
            header->seen[k] = true;
            header->value[k] = trimmed(without(line, name.len));
            return !again;
        }
    return false;
}

/* Takes all lines up to ENDHDR, and leaves the pixels as the rest; false where that is no header. */
static bool take_header(Header *header, Piece *rest)
{
    if (!is(first_line(*rest), "P7"))
        return false;
    *rest = without(*rest, 3);
    for (;;) {
        Piece line = first_line(*rest), words = trimmed(line);
        if (line.at == NULL)
            return false;
        *rest = without(*rest, line.len + 1);
        if (is(words, "ENDHDR"))
            return true;
        bool comment = line.len != 0 && line.at[0] == '#';
        if (!comment && words.len != 0 && !take_line(header, words))
            return false;
    }
}

/* Whether the header has everything, and what it has is allowed; the size and the depth then. */
static bool is_complete(const Header *header, PamFile *file)
{
    uint32_t maxval;
    for (size_t k = 0; k < NAMES; k++)
        if (!header->seen[k])
            return false;
    return is_number(header->value[WIDTH], &file->width) && is_number(header->value[HEIGHT], &file->height)
           && is_number(header->value[DEPTH], &file->depth) && is_number(header->value[MAXVAL], &maxval) && maxval == 255
           && ((file->depth == 4 && is(header->value[TUPLTYPE], "RGB_ALPHA"))
               || (file->depth == 3 && is(header->value[TUPLTYPE], "RGB")));
}

PamFile pam_file(const uint8_t *bytes, size_t len)
{
    Piece rest = {bytes, len};
    Header header = {.seen = {false}};
    PamFile file = {.number = BADGE_REFUSED_PAM_HEADER};
    if (!take_header(&header, &rest) || !is_complete(&header, &file))
        return file;
    file.number = pam_number(file.width, file.height);
    if (file.number == BADGE_ACCEPTED && rest.len != (size_t)file.width * file.height * file.depth)
        file.number = BADGE_REFUSED_PAM_PIXELS;
    file.pixels = rest.at;
    return file;
}

PamHeader pam_header(uint32_t width, uint32_t height)
{
    PamHeader header;
    int len = snprintf(header.text, sizeof header.text,
                       "P7\nWIDTH %lu\nHEIGHT %lu\nDEPTH 4\nMAXVAL 255\nTUPLTYPE RGB_ALPHA\nENDHDR\n", (unsigned long)width,
                       (unsigned long)height);
    header.len = (size_t)len;
    return header;
}
