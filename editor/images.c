/* Images to try the image check on. */
#include "images.h"

/* xorshift64*, from a fixed start: each run makes the same images. */
static uint64_t state = 0x9e3779b97f4a7c15;

static uint32_t random_word(void)
{
    state ^= state >> 12;
    state ^= state << 25;
    state ^= state >> 27;
    return (uint32_t)((state * 0x2545f4914f6cdd1d) >> 32);
}

unsigned random_below(unsigned limit)
{
    return random_word() % limit;
}

unsigned random_between(unsigned least, unsigned most)
{
    switch (random_below(4)) {
    case 0:
        return least;
    case 1:
        return most;
    default:
        return least + random_below(most - least + 1);
    }
}

uint8_t random_other(uint8_t byte)
{
    return (uint8_t)(byte + 1 + random_below(255));
}

void make_good(uint8_t *bytes, unsigned modules, unsigned cycles)
{
    struct directory directory = {0};
    directory.modules = (uint8_t)modules;
    directory.every = (uint8_t)cycles;
    for (unsigned i = 0; i < 8; i++) {
        directory.events = 256 * directory.events + random_between(0, 255);
    }
    for (unsigned i = 0; i < modules; i++) {
        struct module *module = &directory.module[i];
        module->level = (uint8_t)random_between(1, LEVELS);
        module->units = (uint8_t)random_between(0, UNITS);
        module->flags = (uint8_t)random_between(0, 1);
        module->entry = random_word();
    }
    image_put(&directory, bytes);
}

void make_any_good(uint8_t *bytes)
{
    unsigned modules = random_between(1, MODULES);
    unsigned cycles = random_between(1, 255);
    make_good(bytes, modules, cycles);
}
