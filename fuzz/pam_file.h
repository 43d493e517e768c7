/*
 * What a PAM file is, worked out anew from the words of the request and of the public document: which files are read, of which
 * size and pixels, and the one form that is written.
 */
#ifndef PAM_FILE_H
#define PAM_FILE_H

#include <stddef.h>
#include <stdint.h>

typedef struct {
    uint32_t number; /* what asking for the size has to answer */

    /* where that is acceptance */
    uint32_t width, height, depth;
    const uint8_t *pixels; /* depth bytes each */
} PamFile;

PamFile pam_file(const uint8_t *bytes, size_t len);

/* The header that is written before the pixels, as a text, and its length. */
typedef struct {
    char text[128];
    size_t len;
} PamHeader;

PamHeader pam_header(uint32_t width, uint32_t height);

#endif
