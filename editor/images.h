/* Images to try the image check on: good ones, and ways to damage them. */
#ifndef IMAGES_H
#define IMAGES_H

#include <stddef.h>
#include <stdint.h>

#include "image.h"

enum {
    LONGEST = 1100 /* length that is tried */
};

/* The next number of a fixed row of random numbers, below 'limit'. */
unsigned random_below(unsigned limit);

/* Any number from 'least' to 'most', the two ends more often than others. */
unsigned random_between(unsigned least, unsigned most);

/* A byte other than 'byte'. */
uint8_t random_other(uint8_t byte);

/* Makes a good image with these two numbers and everything else random. */
void make_good(uint8_t *bytes, unsigned modules, unsigned cycles);

/* A good image with random numbers. */
void make_any_good(uint8_t *bytes);

#endif
