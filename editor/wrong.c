/* Wrong image checks and wrong block checks, each the right one with one slip. */
#include "wrong.h"

#include <string.h>

#include "images.h"

/* ---- wrong block checks */

/* The sums start one byte late: byte 509 is in none of them. */
static int late(const uint8_t *block, size_t length)
{
    uint8_t copy[IMAGE_LENGTH];
    if (length != IMAGE_LENGTH) {
        return 0;
    }
    memcpy(copy, block, IMAGE_LENGTH);
    copy[AT_CHECK - 1] = 0;
    return (int)image_check_value(copy);
}

/* The two sums are added in the other order: the weights start at 0. */
static int turned(const uint8_t *block, size_t length)
{
    unsigned total = 0, sum = 0;
    if (length != IMAGE_LENGTH) {
        return 0;
    }
    for (unsigned i = AT_CHECK; i > 0; i--) {
        sum += total;
        total += block[i - 1];
    }
    return (int)(1 + sum % 65521);
}

/* A longer block is answered too, by the check of its first 512 bytes. */
static int longer(const uint8_t *block, size_t length)
{
    return length < IMAGE_LENGTH ? 0 : (int)image_check_value(block);
}

/* ---- wrong image checks */

/* What the right check answers once the byte at 'at' is 'byte' and the check
   is right. */
static int answer_with(const uint8_t *bytes, size_t at, uint8_t byte)
{
    uint8_t copy[IMAGE_LENGTH];
    memcpy(copy, bytes, IMAGE_LENGTH);
    copy[at] = byte;
    image_seal(copy);
    return image_refusal(copy, IMAGE_LENGTH);
}

/* The weights of the check start at 0 and not at 1. */
static int weights(const uint8_t *bytes, size_t length)
{
    if (length != IMAGE_LENGTH) {
        return image_refusal(bytes, length);
    }
    if (bytes[AT_CHECK] + 256 * bytes[AT_CHECK + 1] != turned(bytes, length)) {
        return 2;
    }
    return answer_with(bytes, 0, bytes[0]);
}

/* Refusal 6 comes before 5. */
static int order(const uint8_t *bytes, size_t length)
{
    int answer = image_refusal(bytes, length);
    return answer == 5 && answer_with(bytes, 2, 1) == 6 ? 6 : answer;
}

/* Byte 509 is not looked at, but for the check. */
static int blind(const uint8_t *bytes, size_t length)
{
    int answer = image_refusal(bytes, length);
    return answer == 7 ? answer_with(bytes, AT_CHECK - 1, 0) : answer;
}

/* A byte past the end is read, though the answer is right. */
static int past(const uint8_t *bytes, size_t length)
{
    volatile uint8_t next = bytes[length];
    (void)next;
    return image_refusal(bytes, length);
}

/* A byte before the start is read, though the answer is right. */
static int before(const uint8_t *bytes, size_t length)
{
    volatile uint8_t last = *(bytes - 1);
    (void)last;
    return image_refusal(bytes, length);
}

/* The image is changed, though the answer is right. The detour through a number
   drops the 'const' without a warning. */
static int writes(const uint8_t *bytes, size_t length)
{
    int answer = image_refusal(bytes, length);
    if (length > 0) {
        *(uint8_t *)(uintptr_t)bytes ^= 1;
    }
    return answer;
}

struct slip {
    const char *name; /* NULL behind the last */
    check_function *check;
};

static const struct slip of_images[] = {
    {"weights", weights}, {"order", order}, {"blind", blind},
    {"past", past}, {"before", before}, {"writes", writes}, {NULL, NULL}
};

static const struct slip of_blocks[] = {
    {"late", late}, {"turned", turned}, {"longer", longer}, {NULL, NULL}
};

static check_function *named(const struct slip *slip, const char *name)
{
    while (slip->name != NULL && strcmp(slip->name, name) != 0) {
        slip++;
    }
    return slip->check;
}

check_function *wrong_check(const char *name)
{
    return named(of_images, name);
}

check_function *wrong_block(const char *name)
{
    return named(of_blocks, name);
}
