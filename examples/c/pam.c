/*
 * An example of the C interface: reads a PAM file, draws it in eight colours by the kernel of Floyd and Steinberg, and writes
 * what is drawn as another PAM file. C11; link with libexports.a.
 *
 *   pam PHOTO.pam DRAWN.pam
 */
#include <errno.h>
#include <stdint.h>
#include <stdio.h>
#include <stdlib.h>
#include <string.h>

#include "badge_dither.h"

/* Ends the program with one line. */
static _Noreturn void die(const char *name, const char *why)
{
    fprintf(stderr, "pam: %s: %s\n", name, why);
    exit(1);
}

/* Ends the program unless a call has accepted. */
static void accepted(uint32_t number, const char *name)
{
    switch (number) {
    case BADGE_ACCEPTED: return;
    case BADGE_REFUSED_PAM_HEADER: die(name, "no PAM file of RGB or RGB_ALPHA with MAXVAL 255, or one without pixels");
    case BADGE_REFUSED_SIZE: die(name, "a picture with a side above 4,096 or more than 1,048,576 pixels");
    case BADGE_REFUSED_PAM_PIXELS: die(name, "pixels are missing, or something is left over after them");
    default: die(name, "a call was refused, which is a mistake in this program");
    }
}

/* realloc, but the program ends where there is no memory. */
static void *memory(void *held, size_t size)
{
    void *block = realloc(held, size);
    if (block == NULL)
        die("memory", strerror(errno));
    return block;
}

/* All bytes of a file, however many. */
static uint8_t *read_file(const char *name, size_t *len)
{
    FILE *stream = fopen(name, "rb");
    if (stream == NULL)
        die(name, strerror(errno));
    uint8_t *bytes = NULL;
    size_t room = 0, got;
    *len = 0;
    do {
        if (*len == room)
            bytes = memory(bytes, room = 2 * room + 4096);
        got = fread(bytes + *len, 1, room - *len, stream);
        *len += got;
    } while (got != 0);
    if (ferror(stream))
        die(name, strerror(errno));
    fclose(stream);
    return bytes;
}

/* Writes a file under another name beside it and renames it then, so that it is there in full or is as it was. */
static void write_file(const char *name, const uint8_t *bytes, size_t len)
{
    size_t room = strlen(name) + sizeof ".part";
    char *part = memory(NULL, room);
    snprintf(part, room, "%s.part", name);
    FILE *stream = fopen(part, "wbx");
    if (stream == NULL)
        die(part, strerror(errno));
    size_t written = fwrite(bytes, 1, len, stream);
    if (fclose(stream) != 0 || written != len || rename(part, name) != 0) {
        int why = errno;
        remove(part);
        die(name, strerror(why));
    }
    free(part);
}

/* Draws a picture: five bits a channel, and black, white and the six colours between them. */
static uint32_t draw(uint32_t width, uint32_t height, const uint8_t *photo, uint8_t *drawn)
{
    static const uint8_t palette[] = {0, 0, 0, 255, 31, 0, 0, 255, 0, 31, 0, 255, 31, 31, 0, 255,
                                      0, 0, 31, 255, 31, 0, 31, 255, 0, 31, 31, 255, 31, 31, 31, 255};
    uint8_t reduction[256], scale[256];
    for (unsigned v = 0; v < 256; v++) {
        reduction[v] = (uint8_t)(v >> 3);
        scale[v] = (uint8_t)(v << 3 | v >> 2);
    }
    size_t pixels = (size_t)width * height;
    uint8_t *indices = memory(NULL, pixels);
    int16_t *cells = memory(NULL, 3 * pixels * sizeof *cells);
    uint32_t number = badge_quantize_pixels(3, BADGE_BY_ALPHA, BADGE_FLOYD_STEINBERG, width, height, reduction, 256, scale, 256,
                                            palette, sizeof palette, photo, 4 * pixels, NULL, 0, indices, pixels,
                                            drawn, 4 * pixels, cells, 3 * pixels);
    free(indices);
    free(cells);
    return number;
}

int main(int argc, char **argv)
{
    if (argc != 3) {
        fputs("usage: pam PHOTO.pam DRAWN.pam\n", stderr);
        return 2;
    }
    const char *from = argv[1], *to = argv[2];

    size_t file_len;
    uint8_t *file = read_file(from, &file_len);
    uint32_t width, height;
    accepted(badge_pam_size(file, file_len, &width, &height), from);
    size_t pixels_len = (size_t)4 * width * height;
    uint8_t *photo = memory(NULL, pixels_len), *drawn = memory(NULL, pixels_len);
    accepted(badge_read_pam(file, file_len, photo, pixels_len, &width, &height), from);

    accepted(draw(width, height, photo, drawn), from);

    uint64_t length;
    accepted(badge_pam_length(width, height, &length), to);
    file = memory(file, length);
    accepted(badge_write_pam(width, height, drawn, pixels_len, file, length), to);
    write_file(to, file, length);

    free(file);
    free(photo);
    free(drawn);
    return 0;
}
