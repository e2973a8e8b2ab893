/* The images that the test tries, group by group. */
#include "groups.h"

#include <string.h>

#include "images.h"

static void try_sealed(uint8_t *bytes, int known)
{
    image_seal(bytes);
    try_image(bytes, IMAGE_LENGTH, known);
}

/* Each M and each N, eight times and more. */
static void good(void)
{
    uint8_t bytes[IMAGE_LENGTH];
    for (unsigned i = 0; i < 8 * 255; i++) {
        make_good(bytes, i % MODULES + 1, i % 255 + 1);
        try_image(bytes, IMAGE_LENGTH, 0);
    }
}

/* Every length, of a good image that is cut, or goes on with zeros or with
   the same image again. */
static void lengths(void)
{
    uint8_t bytes[3 * IMAGE_LENGTH];
    for (size_t length = 0; length <= LONGEST; length++) {
        int known = length == IMAGE_LENGTH ? 0 : 1;
        make_any_good(bytes);
        memset(bytes + IMAGE_LENGTH, 0, 2 * IMAGE_LENGTH);
        try_image(bytes, length, known);
        memcpy(bytes + IMAGE_LENGTH, bytes, IMAGE_LENGTH);
        memcpy(bytes + 2 * IMAGE_LENGTH, bytes, IMAGE_LENGTH);
        try_image(bytes, length, known);
    }
}

/* One byte damaged, at each offset: 65,521 is a prime, so the check always
   notices. Then with the check made right again. */
static void one_byte(void)
{
    static const uint8_t flips[] = {0x01, 0x02, 0x40, 0x80, 0xff};
    uint8_t bytes[IMAGE_LENGTH];
    for (unsigned at = 0; at < IMAGE_LENGTH; at++) {
        for (unsigned i = 0; i < sizeof flips; i++) {
            make_any_good(bytes);
            bytes[at] ^= flips[i];
            try_image(bytes, IMAGE_LENGTH, 2);
            try_sealed(bytes, at >= AT_CHECK ? 0 : UNKNOWN);
        }
    }
}

/* Two bytes damaged, then with the check made right again. */
static void two_bytes(void)
{
    uint8_t bytes[IMAGE_LENGTH];
    for (unsigned i = 0; i < 3000; i++) {
        make_any_good(bytes);
        for (unsigned k = 0; k < 2; k++) {
            unsigned at = random_below(i % 2 ? IMAGE_LENGTH : AT_LAST_ZERO);
            bytes[at] = random_other(bytes[at]);
        }
        try_image(bytes, IMAGE_LENGTH, UNKNOWN);
        try_sealed(bytes, UNKNOWN);
    }
}

/* All 256 values of one byte, with the check made right again. */
static void all_values(const uint8_t *image, unsigned at)
{
    uint8_t bytes[IMAGE_LENGTH];
    memcpy(bytes, image, IMAGE_LENGTH);
    for (unsigned value = 0; value < 256; value++) {
        bytes[at] = (uint8_t)value;
        try_sealed(bytes, UNKNOWN);
    }
}

/* All 256 values of each field: bytes 0 to 15, the first and the last used
   entry, the first and the last unused one, the two ends of the last zeros. */
static void fields(void)
{
    static const unsigned modules[] = {1, 17, 31, 32};
    uint8_t image[IMAGE_LENGTH];
    for (unsigned i = 0; i < sizeof modules / sizeof modules[0]; i++) {
        unsigned m = modules[i];
        unsigned entries[] = {0, m - 1, m % MODULES, MODULES - 1};
        make_good(image, m, random_between(1, 255));
        for (unsigned at = 0; at < AT_ENTRIES; at++) {
            all_values(image, at);
        }
        for (unsigned k = 0; k < 4 * ENTRY_LENGTH; k++) {
            unsigned entry = entries[k / ENTRY_LENGTH];
            all_values(image, AT_ENTRIES + ENTRY_LENGTH * entry + k % ENTRY_LENGTH);
        }
        all_values(image, AT_LAST_ZERO);
        all_values(image, AT_CHECK - 1);
    }
}

/* All values of the two bytes of the check. */
static void stored_checks(void)
{
    uint8_t bytes[IMAGE_LENGTH];
    make_any_good(bytes);
    for (unsigned at = AT_CHECK; at < IMAGE_LENGTH; at++) {
        uint8_t right = bytes[at];
        for (unsigned value = 0; value < 256; value++) {
            bytes[at] = (uint8_t)value;
            try_image(bytes, IMAGE_LENGTH, value == right ? 0 : 2);
        }
        bytes[at] = right;
    }
}

/* Makes an image such that the refusal of this number applies. */
static void add_fault(uint8_t *bytes, int refusal)
{
    uint8_t *entry = bytes + AT_ENTRIES;
    unsigned at;
    switch (refusal) {
    case 3:
        bytes[0] = random_other(1);
        break;
    case 4:
        bytes[1] = (uint8_t)(random_below(4) == 0 ? 0 : random_between(33, 255));
        break;
    case 5:
        bytes[2] = 0;
        break;
    case 6:
        switch (random_below(3)) {
        case 0:
            entry[0] = (uint8_t)(random_below(4) == 0 ? 0 : random_between(4, 255));
            break;
        case 1:
            entry[1] = (uint8_t)random_between(65, 255);
            break;
        default:
            entry[2] = (uint8_t)random_between(2, 255);
        }
        break;
    default:
        at = random_between(AT_LAST_ZERO, AT_CHECK - 1);
        bytes[at] = random_other(0);
    }
}

/* Any set of the refusals 3 to 7 applies at once: the lowest is given. Then
   with a wrong check too: 2. Then with a byte less: 1. */
static void several(void)
{
    uint8_t bytes[IMAGE_LENGTH];
    for (unsigned i = 0; i < 32 * 100; i++) {
        int lowest = 0;
        make_any_good(bytes);
        for (int refusal = 7; refusal >= 3; refusal--) {
            if (i >> (refusal - 3) & 1) {
                add_fault(bytes, refusal);
                lowest = refusal;
            }
        }
        try_sealed(bytes, lowest);
        bytes[AT_CHECK] = random_other(bytes[AT_CHECK]);
        try_image(bytes, IMAGE_LENGTH, 2);
        try_image(bytes, IMAGE_LENGTH - 1, 1);
    }
}

/* Nothing but noise, then with a right start and a right check. */
static void noise(void)
{
    uint8_t bytes[IMAGE_LENGTH];
    for (unsigned i = 0; i < 1000; i++) {
        for (unsigned at = 0; at < IMAGE_LENGTH; at++) {
            bytes[at] = (uint8_t)random_below(256);
        }
        try_image(bytes, IMAGE_LENGTH, UNKNOWN);
        try_sealed(bytes, UNKNOWN);
        bytes[0] = 1;
        bytes[1] = (uint8_t)random_between(1, 40);
        try_sealed(bytes, UNKNOWN);
    }
}

/* "With all 510 bytes zero it is 1; with only byte 509 at 255 it is 64,530."
   Then the greatest sum. Each with the check made right, too. */
static void sums(void)
{
    uint8_t bytes[IMAGE_LENGTH] = {0};
    try_image(bytes, IMAGE_LENGTH, 2);
    try_sealed(bytes, 3);
    bytes[AT_CHECK - 1] = 255;
    try_image(bytes, IMAGE_LENGTH, 2);
    try_sealed(bytes, 3);
    memset(bytes, 255, IMAGE_LENGTH);
    try_image(bytes, IMAGE_LENGTH, 2);
    try_sealed(bytes, 3);
}

const struct group groups[] = {
    {"good images", good},
    {"lengths 0 to 1,100", lengths},
    {"one byte damaged", one_byte},
    {"two bytes damaged", two_bytes},
    {"all values of a field", fields},
    {"all values of the check", stored_checks},
    {"several refusals at once", several},
    {"noise", noise},
    {"least and greatest sums", sums},
    {NULL, NULL}
};
