/* A seeded row of numbers, the same on every machine. */
#ifndef RANDOM_H
#define RANDOM_H

#include <stdint.h>

struct random {
    uint64_t state;
};

void random_seed(struct random *random, uint64_t seed);
uint64_t random_next(struct random *random);
unsigned random_below(struct random *random, unsigned bound);
int random_one_in(struct random *random, unsigned bound);

#endif
