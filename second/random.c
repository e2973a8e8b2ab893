/* A seeded row of numbers: xorshift with a last multiplication. */
#include "random.h"

/* The state may not be zero; the first numbers of small seeds are alike and
   are thrown away. */
void random_seed(struct random *random, uint64_t seed)
{
    random->state = seed * 2 + 1;
    for (int i = 0; i < 20; i++) {
        random_next(random);
    }
}

/* The next 64 bits. */
uint64_t random_next(struct random *random)
{
    uint64_t state = random->state;
    state ^= state >> 12;
    state ^= state << 25;
    state ^= state >> 27;
    random->state = state;
    return state * UINT64_C(2685821657736338717);
}

/* A number from 0 up to, not with, the bound; the bound is above 0. */
unsigned random_below(struct random *random, unsigned bound)
{
    return (unsigned)((random_next(random) >> 32) % bound);
}

/* Once in so many times. */
int random_one_in(struct random *random, unsigned bound)
{
    return random_below(random, bound) == 0;
}
