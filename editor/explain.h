/* What the image check found, in words. */
#ifndef EXPLAIN_H
#define EXPLAIN_H

#include <stddef.h>
#include <stdint.h>

/* An image as it was read. Of one that is too long, only the start is held. */
struct image {
    const char *name;
    const uint8_t *bytes;
    size_t length; /* how many bytes are held */
    long whole;    /* how many there are, or -1 where that is not known */
};

/* Prints what 'answer', the check's answer for this image, means, and where
   in the image it comes from. It decides nothing. */
void explain(const struct image *image, unsigned answer);

#endif
