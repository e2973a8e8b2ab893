/* The images that the test tries, group by group. */
#ifndef GROUPS_H
#define GROUPS_H

#include <stddef.h>
#include <stdint.h>

enum {
    UNKNOWN = -1 /* how an image was made does not tell the answer */
};

struct group {
    const char *name;
    void (*run)(void); /* makes the images and has each of them tried */
};

/* All groups; the last has no name. */
extern const struct group groups[];

/* Tries one image. 'known' is the right answer, or UNKNOWN. The program that
   links the groups has this function. */
void try_image(const uint8_t *bytes, size_t length, int known);

#endif
