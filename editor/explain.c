/* What the image check found, in words. The verdict is the check's; this
   only looks for the place that it comes from, and says so where it finds
   none. */
#include "explain.h"

#include <stdio.h>

#include "khilzurgee.h"

enum {
    AT_FORM = 0,
    AT_MODULES = 1,
    AT_CYCLES = 2,
    AT_EVENTS = 8,
    AT_ENTRIES = 16,
    AT_TAIL = 272,
    AT_CHECK = 510,
    ENTRY_LENGTH = 8,
    MOST_MODULES = 32,
    MOST_LINES = 8
};

static unsigned modules_of(const uint8_t *bytes)
{
    unsigned modules = bytes[AT_MODULES];
    return modules < MOST_MODULES ? modules : MOST_MODULES;
}

static const uint8_t *entry_of(const uint8_t *bytes, unsigned number)
{
    return bytes + AT_ENTRIES + ENTRY_LENGTH * number;
}

/* ---- one function for each refusal: it prints the places that the refusal
   comes from and returns how many it found */

static unsigned place_length(const struct image *image)
{
    if (image->length == KHILZURGEE_IMAGE_LENGTH) {
        return 0;
    }
    if (image->whole < 0) {
        printf("  more than %d bytes were found", KHILZURGEE_IMAGE_LENGTH);
    } else {
        printf("  the length found is %ld", image->whole);
    }
    printf("; an image has %d bytes\n", KHILZURGEE_IMAGE_LENGTH);
    return 1;
}

static unsigned place_check(const struct image *image)
{
    const uint8_t *stored = image->bytes + AT_CHECK;
    unsigned found = stored[0] + 256U * stored[1];
    unsigned expected = khilzurgee_block_check(image->bytes, KHILZURGEE_IMAGE_LENGTH);
    if (found == expected) {
        return 0;
    }
    printf("  stored in bytes 510 and 511: %u (%02x %02x)\n",
           found, stored[0], stored[1]);
    printf("  expected from bytes 0 to 509: %u (%02x %02x)\n",
           expected, expected % 256, expected / 256);
    return 1;
}

/* A field of one byte that is to lie between two numbers. */
static unsigned place_field(const struct image *image, unsigned at,
                            const char *name, unsigned least, unsigned most)
{
    unsigned found = image->bytes[at];
    if (found >= least && found <= most) {
        return 0;
    }
    printf("  byte %u, %s: %u found, ", at, name, found);
    if (least == most) {
        printf("%u expected\n", least);
    } else {
        printf("%u to %u expected\n", least, most);
    }
    return 1;
}

static unsigned place_form(const struct image *image)
{
    return place_field(image, AT_FORM, "the form", 1, 1);
}

static unsigned place_modules(const struct image *image)
{
    return place_field(image, AT_MODULES, "M", 1, MOST_MODULES);
}

static unsigned place_cycles(const struct image *image)
{
    return place_field(image, AT_CYCLES, "N", 1, 255);
}

static unsigned place_entry(const struct image *image)
{
    unsigned places = 0;
    for (unsigned i = 0; i < modules_of(image->bytes); i++) {
        unsigned at = AT_ENTRIES + ENTRY_LENGTH * i;
        char name[40];
        snprintf(name, sizeof name, "the level of entry %u", i);
        places += place_field(image, at, name, 1, 3);
        snprintf(name, sizeof name, "the core units of entry %u", i);
        places += place_field(image, at + 1, name, 0, 64);
        snprintf(name, sizeof name, "the flags of entry %u", i);
        places += place_field(image, at + 2, name, 0, 1);
    }
    return places;
}

/* Whether the byte at this offset has to be zero, and as part of what. */
static int has_to_be_zero(const uint8_t *bytes, unsigned at, char *part, size_t size)
{
    unsigned entry = at < AT_ENTRIES ? 0 : (at - AT_ENTRIES) / ENTRY_LENGTH;
    if (at > AT_CYCLES && at < AT_EVENTS) {
        snprintf(part, size, "one of bytes 3 to 7");
    } else if (at >= AT_TAIL && at < AT_CHECK) {
        snprintf(part, size, "one of bytes 272 to 509");
    } else if (at < AT_ENTRIES || at >= AT_CHECK) {
        return 0;
    } else if (entry >= modules_of(bytes)) {
        snprintf(part, size, "part of entry %u, which is not used", entry);
    } else if (at % ENTRY_LENGTH == 3) {
        snprintf(part, size, "the fourth byte of entry %u", entry);
    } else {
        return 0;
    }
    return 1;
}

static unsigned place_zero(const struct image *image)
{
    unsigned places = 0;
    for (unsigned at = 0; at < KHILZURGEE_IMAGE_LENGTH; at++) {
        char part[48];
        if (image->bytes[at] == 0
            || !has_to_be_zero(image->bytes, at, part, sizeof part)) {
            continue;
        }
        places++;
        if (places <= MOST_LINES) {
            printf("  byte %u, %s: %u found, 0 expected\n", at, part, image->bytes[at]);
        }
    }
    if (places > MOST_LINES) {
        printf("  and %u more\n", places - MOST_LINES);
    }
    return places;
}

/* ---- an accepted image */

static unsigned events_of(const uint8_t *bytes)
{
    unsigned events = 0;
    for (unsigned i = AT_EVENTS; i < AT_ENTRIES; i++) {
        for (unsigned byte = bytes[i]; byte != 0; byte /= 2) {
            events += byte % 2;
        }
    }
    return events;
}

/* Prints a number and what it counts. */
static void print_count(unsigned count, const char *thing)
{
    printf("%u %s%s", count, thing, count == 1 ? "" : "s");
}

static unsigned list_modules(const struct image *image)
{
    printf("  ");
    print_count(modules_of(image->bytes), "module");
    printf(", ");
    print_count(events_of(image->bytes), "defined event");
    printf(", a look at the time queue every ");
    print_count(image->bytes[AT_CYCLES], "cycle");
    printf("\n");
    for (unsigned i = 0; i < modules_of(image->bytes); i++) {
        const uint8_t *entry = entry_of(image->bytes, i);
        printf("  module %u: level %u, ", i, entry[0]);
        print_count(entry[1], "core unit");
        printf(", entry point 0x%02x%02x%02x%02x%s\n", entry[7], entry[6],
               entry[5], entry[4], entry[2] == 1 ? ", reentrant" : "");
    }
    return 1;
}

/* ---- all answers */

static const struct {
    const char *words;
    unsigned (*place)(const struct image *image);
} meanings[] = {
    [KHILZURGEE_ACCEPTED] = {"accepted", list_modules},
    [KHILZURGEE_BAD_LENGTH] = {"it has the wrong length", place_length},
    [KHILZURGEE_BAD_CHECK] = {"its check is wrong", place_check},
    [KHILZURGEE_BAD_FORM] = {"its form is not known", place_form},
    [KHILZURGEE_BAD_MODULES] = {"M, the number of modules, is wrong", place_modules},
    [KHILZURGEE_BAD_CYCLES] = {"N, the cycles between looks at the time queue, is wrong",
                               place_cycles},
    [KHILZURGEE_BAD_ENTRY] = {"a used entry has a bad level, units or flags", place_entry},
    [KHILZURGEE_NOT_ZERO] = {"a byte that has to be zero isn't", place_zero}
};

void explain(const struct image *image, unsigned answer)
{
    if (answer >= sizeof meanings / sizeof meanings[0]) {
        printf("%s: refused by %u, a number that this program does not know\n",
               image->name, answer);
        return;
    }
    if (answer == KHILZURGEE_ACCEPTED) {
        printf("%s: %s\n", image->name, meanings[answer].words);
    } else {
        printf("%s: refused by %u: %s\n", image->name, answer, meanings[answer].words);
    }
    if (meanings[answer].place(image) == 0) {
        printf("  this program does not find the place; the answer is the check's\n");
    }
}
