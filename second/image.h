/* The phase image: "One block of 512 bytes, numbers little-endian." */
#ifndef IMAGE_H
#define IMAGE_H

#include <stddef.h>
#include <stdint.h>

enum {
    IMAGE_LENGTH = 512,
    MODULES = 32,
    LEVELS = 3,
    UNITS = 64
};

/* Where things lie, from the table under "Phase image"; the last two are
   places in an entry. */
enum {
    AT_FORM = 0,
    AT_MODULES = 1,
    AT_EVERY = 2,
    AT_FIRST_ZERO = 3,
    AT_EVENTS = 8,
    AT_ENTRIES = 16,
    AT_LAST_ZERO = 272,
    AT_CHECK = 510,
    ENTRY_LENGTH = 8,
    ENTRY_ZERO = 3,
    ENTRY_POINT = 4
};

/* "level, core units 0 to 64, flags [...], zero, entry point in 4 bytes" */
struct module {
    uint8_t level;
    uint8_t units;
    uint8_t flags;
    uint32_t entry;
};

/* What the image says: "M, modules", "N, cycles between looks at the time
   queue", "defined events", "32 entries". */
struct directory {
    uint8_t modules;
    uint8_t every;
    uint64_t events;
    struct module module[MODULES];
};

/* "It refuses by 1, 4, 5, 6, 7 in that order [...]; the result is 1 if
   accepted, else 0." */
struct write_answer {
    int refusal;
    int result;
};

uint64_t number_get(const uint8_t *bytes, size_t count);
void number_put(uint8_t *bytes, size_t count, uint64_t number);

unsigned image_check_value(const uint8_t *bytes);
int image_refusal(const uint8_t *bytes, size_t length);
int image_load(struct directory *directory, const uint8_t *bytes,
               size_t length);
struct write_answer image_write(const struct directory *directory,
                                uint8_t *bytes, size_t length);

/* The parts of loading and writing that others use as well. */
int directory_refusal(const struct directory *directory);
void image_put(const struct directory *directory, uint8_t *bytes);
void image_seal(uint8_t *bytes);

#endif
