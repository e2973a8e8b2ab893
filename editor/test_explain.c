/* Prints what explain() says of one image for each refusal, and of answers
   that do not belong to the image. editor/test compares it with
   editor/explain.txt. */
#include <stdio.h>
#include <string.h>

#include "explain.h"
#include "images.h"
#include "khilzurgee.h"

enum {
    MOST_CHANGES = 12
};

/* The image of the session in full: N 2, events 0 and 1, three modules. */
static const uint8_t start[] = {
    1, 3, 2, 0, 0, 0, 0, 0,
    3, 0, 0, 0, 0, 0, 0, 0,
    2, 40, 0, 0, 0, 0, 0, 0,
    1, 0, 1, 0, 0x78, 0x56, 0x34, 0x12,
    2, 30, 0, 0, 0, 0, 0, 0
};

/* What is changed in it, bytes 0 to 509, before the check is made right. */
struct change {
    unsigned at;
    uint8_t byte;
};

static const struct sample {
    const char *name;
    size_t length;
    struct change changes[MOST_CHANGES];
} samples[] = {
    {"good", 512, {{0, 1}}},
    {"one of each", 512, {{1, 1}, {2, 1}, {8, 1}, {17, 1}, {24, 0}, {26, 0},
                          {28, 0}, {29, 0}, {30, 0}, {31, 0}, {32, 0}, {33, 0}}},
    {"empty", 0, {{0, 1}}},
    {"short", 511, {{0, 1}}},
    {"long", 513, {{0, 1}}},
    {"form", 512, {{0, 2}}},
    {"no module", 512, {{1, 0}}},
    {"modules", 512, {{1, 33}}},
    {"cycles", 512, {{2, 0}}},
    {"entries", 512, {{16, 0}, {24, 4}, {33, 65}, {34, 2}}},
    {"unused", 512, {{1, 2}}},
    {"zeros", 512, {{3, 1}, {19, 2}, {40, 3}, {271, 4}, {272, 5}, {509, 255}}},
    {"many", 512, {{3, 1}, {4, 1}, {5, 1}, {6, 1}, {7, 1},
                   {300, 1}, {301, 1}, {302, 1}, {303, 1}, {304, 1}}}
};

static void make(uint8_t *bytes, const struct sample *sample)
{
    memset(bytes, 0, KHILZURGEE_IMAGE_LENGTH + 1);
    memcpy(bytes, start, sizeof start);
    for (unsigned i = 0; i < MOST_CHANGES; i++) {
        if (sample->changes[i].at != 0 || sample->changes[i].byte != 0) {
            bytes[sample->changes[i].at] = sample->changes[i].byte;
        }
    }
    image_seal(bytes);
}

static void explain_it(const char *name, const uint8_t *bytes, size_t length, long whole)
{
    struct image image = {name, bytes, length, whole};
    explain(&image, khilzurgee_image_check(bytes, length));
}

int main(void)
{
    uint8_t bytes[KHILZURGEE_IMAGE_LENGTH + 1];
    for (size_t i = 0; i < sizeof samples / sizeof samples[0]; i++) {
        make(bytes, &samples[i]);
        explain_it(samples[i].name, bytes, samples[i].length, (long)samples[i].length);
    }
    make(bytes, &samples[0]);
    explain_it("endless", bytes, sizeof bytes, -1);
    bytes[8] = 7;
    explain_it("damaged", bytes, KHILZURGEE_IMAGE_LENGTH, KHILZURGEE_IMAGE_LENGTH);
    make(bytes, &samples[0]);
    struct image good = {"not this image", bytes, KHILZURGEE_IMAGE_LENGTH, KHILZURGEE_IMAGE_LENGTH};
    for (unsigned answer = 1; answer <= 8; answer++) {
        explain(&good, answer);
    }
    return 0;
}
