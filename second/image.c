/* The phase image: its check, its refusals, loading it and writing it. */
#include "image.h"

#include <string.h>

enum { FORM = 1 };

/* "numbers little-endian" */
uint64_t number_get(const uint8_t *bytes, size_t count)
{
    uint64_t number = 0;
    for (size_t i = count; i > 0; i--) {
        number = number * 256 + bytes[i - 1];
    }
    return number;
}

/* "numbers little-endian" */
void number_put(uint8_t *bytes, size_t count, uint64_t number)
{
    for (size_t i = 0; i < count; i++) {
        bytes[i] = (uint8_t)(number % 256);
        number = number / 256;
    }
}

/* "The check is 1 plus the remainder by 65,521 of the sum of (i+1) times
   byte i, i from 0 to 509." */
unsigned image_check_value(const uint8_t *bytes)
{
    uint32_t sum = 0;
    for (uint32_t i = 0; i < AT_CHECK; i++) {
        sum += (i + 1) * bytes[i];
    }
    return 1 + sum % 65521;
}

/* "6 a used entry with a bad level, units or flags" */
static int module_is_bad(const struct module *module)
{
    return module->level < 1 || module->level > LEVELS
        || module->units > UNITS
        || module->flags > 1;
}

/* "Entries from M on are all zero." */
static int module_is_set(const struct module *module)
{
    return module->level != 0 || module->units != 0
        || module->flags != 0 || module->entry != 0;
}

/* The refusals that a directory alone can get: "4 M; 5 N; 6 a used entry
   with a bad level, units or flags; 7 [...] something set in an unused
   entry". The lowest that applies. */
int directory_refusal(const struct directory *directory)
{
    if (directory->modules < 1 || directory->modules > MODULES) {
        return 4;
    }
    if (directory->every < 1) {
        return 5;
    }
    for (int i = 0; i < directory->modules; i++) {
        if (module_is_bad(&directory->module[i])) {
            return 6;
        }
    }
    for (int i = directory->modules; i < MODULES; i++) {
        if (module_is_set(&directory->module[i])) {
            return 7;
        }
    }
    return 0;
}

/* "7 a byte that has to be zero isn't": bytes 3-7, the fourth byte of each
   entry, and 272-509. The other bytes of the entries from M on are in the
   directory. */
static int zeros_are_zero(const uint8_t *bytes)
{
    for (int i = AT_FIRST_ZERO; i < AT_EVENTS; i++) {
        if (bytes[i] != 0) {
            return 0;
        }
    }
    for (int i = 0; i < MODULES; i++) {
        const uint8_t *entry = bytes + AT_ENTRIES + ENTRY_LENGTH * i;
        if (entry[ENTRY_ZERO] != 0) {
            return 0;
        }
    }
    for (int i = AT_LAST_ZERO; i < AT_CHECK; i++) {
        if (bytes[i] != 0) {
            return 0;
        }
    }
    return 1;
}

/* The table under "Phase image", read. */
static void image_get(struct directory *directory, const uint8_t *bytes)
{
    directory->modules = bytes[AT_MODULES];
    directory->every = bytes[AT_EVERY];
    directory->events = number_get(bytes + AT_EVENTS, 8);
    for (int i = 0; i < MODULES; i++) {
        const uint8_t *entry = bytes + AT_ENTRIES + ENTRY_LENGTH * i;
        struct module *module = &directory->module[i];
        module->level = entry[0];
        module->units = entry[1];
        module->flags = entry[2];
        module->entry = (uint32_t)number_get(entry + ENTRY_POINT, 4);
    }
}

/* "it answers the number that loading would, 0 for none" and "The lowest
   that applies is given". */
int image_refusal(const uint8_t *bytes, size_t length)
{
    struct directory directory;
    if (length != IMAGE_LENGTH) {
        return 1;
    }
    if (number_get(bytes + AT_CHECK, 2) != image_check_value(bytes)) {
        return 2;
    }
    if (bytes[AT_FORM] != FORM) {
        return 3;
    }
    image_get(&directory, bytes);
    int refusal = directory_refusal(&directory);
    if (refusal == 0 && !zeros_are_zero(bytes)) {
        refusal = 7;
    }
    return refusal;
}

/* "The lowest that applies is given, with all-zero tables". */
int image_load(struct directory *directory, const uint8_t *bytes,
               size_t length)
{
    int refusal = image_refusal(bytes, length);
    memset(directory, 0, sizeof *directory);
    if (refusal == 0) {
        image_get(directory, bytes);
    }
    return refusal;
}

/* "510-511 | check" */
void image_seal(uint8_t *bytes)
{
    number_put(bytes + AT_CHECK, 2, image_check_value(bytes));
}

/* The table under "Phase image", written, good or bad. */
void image_put(const struct directory *directory, uint8_t *bytes)
{
    memset(bytes, 0, IMAGE_LENGTH);
    bytes[AT_FORM] = FORM;
    bytes[AT_MODULES] = directory->modules;
    bytes[AT_EVERY] = directory->every;
    number_put(bytes + AT_EVENTS, 8, directory->events);
    for (int i = 0; i < MODULES; i++) {
        uint8_t *entry = bytes + AT_ENTRIES + ENTRY_LENGTH * i;
        const struct module *module = &directory->module[i];
        entry[0] = module->level;
        entry[1] = module->units;
        entry[2] = module->flags;
        number_put(entry + ENTRY_POINT, 4, module->entry);
    }
    image_seal(bytes);
}

/* "Writing takes a directory and a lent buffer. It refuses by 1, 4, 5, 6, 7
   in that order [...] and then writes nothing". */
struct write_answer image_write(const struct directory *directory,
                                uint8_t *bytes, size_t length)
{
    struct write_answer answer = {1, 0};
    if (length != IMAGE_LENGTH) {
        return answer;
    }
    answer.refusal = directory_refusal(directory);
    if (answer.refusal != 0) {
        return answer;
    }
    image_put(directory, bytes);
    answer.result = 1;
    return answer;
}
