/* Times the exported checks against the independent ones of second/, on good
   images, so that each call goes through the whole check: the image check, and
   the block check alone.

   usage: check [CALLS]                             times both and prints the ratios
          check CALLS image|block library|plain     only makes the calls, a multiple
                                                    of 8, for a counter */
#define _POSIX_C_SOURCE 199309L
#include <stdio.h>
#include <stdlib.h>
#include <string.h>
#include <time.h>

#include "images.h"
#include "khilzurgee.h"

enum {
    IMAGES = 8,
    ROUNDS = 15
};

/* The example: the image of the session in full. */
static const struct directory example = {
    .modules = 3,
    .every = 2,
    .events = 3,
    .module = {{.level = 2, .units = 40}, {.level = 1, .units = 0}, {.level = 2, .units = 30}}
};

static uint8_t images[IMAGES][IMAGE_LENGTH];

/* One check of the library and the plain one, on the image of this number. They
   lie in files of their own, so no call can be left out. */
typedef unsigned long check_function(unsigned number);

static unsigned long image_library(unsigned number)
{
    return khilzurgee_image_check(images[number], IMAGE_LENGTH);
}

static unsigned long image_plain(unsigned number)
{
    return (unsigned long)image_refusal(images[number], IMAGE_LENGTH);
}

static unsigned long block_library(unsigned number)
{
    return khilzurgee_block_check(images[number], IMAGE_LENGTH);
}

static unsigned long block_plain(unsigned number)
{
    return image_check_value(images[number]);
}

static const struct measured {
    const char *name;
    check_function *library, *plain;
} all_measured[] = {
    {"image", image_library, image_plain},
    {"block", block_library, block_plain},
    {NULL, NULL, NULL}
};

/* Makes the calls and returns the sum of the answers. */
static unsigned long calls_of(check_function *check, unsigned long calls)
{
    unsigned long sum = 0;
    for (unsigned long i = 0; i < calls; i++) {
        sum += check(i % IMAGES);
    }
    return sum;
}

/* The seconds of processor time that the calls take. */
static double seconds(check_function *check, unsigned long calls, unsigned long expected)
{
    struct timespec before, after;
    clock_gettime(CLOCK_PROCESS_CPUTIME_ID, &before);
    unsigned long sum = calls_of(check, calls);
    clock_gettime(CLOCK_PROCESS_CPUTIME_ID, &after);
    if (sum != expected) {
        fprintf(stderr, "bench: two checks differ\n");
        exit(1);
    }
    return (double)(after.tv_sec - before.tv_sec)
        + (double)(after.tv_nsec - before.tv_nsec) / 1e9;
}

static int compare(const void *left, const void *right)
{
    double a = *(const double *)left, b = *(const double *)right;
    return (a > b) - (a < b);
}

static double median(double *values)
{
    qsort(values, ROUNDS, sizeof values[0], compare);
    return values[ROUNDS / 2];
}

/* Rounds of the two in turn, each round's ratio taken by itself. */
static void time_both(const struct measured *of, unsigned long calls)
{
    double library[ROUNDS], plain[ROUNDS], ratio[ROUNDS];
    unsigned long expected = calls_of(of->plain, calls);
    for (int i = 0; i < ROUNDS; i++) {
        if (i % 2 == 0) {
            library[i] = seconds(of->library, calls, expected);
            plain[i] = seconds(of->plain, calls, expected);
        } else {
            plain[i] = seconds(of->plain, calls, expected);
            library[i] = seconds(of->library, calls, expected);
        }
        ratio[i] = library[i] / plain[i];
    }
    double middle = median(ratio);
    double of_library = median(library) * 1e9 / (double)calls;
    double of_plain = median(plain) * 1e9 / (double)calls;
    printf("%s check: %.1f ns a call, plain C: %.1f ns a call (medians of %d rounds of %lu calls each): ",
           of->name, of_library, of_plain, ROUNDS, calls);
    printf("%.2f times the plain C loop (%.2f to %.2f in a round)\n", middle, ratio[0], ratio[ROUNDS - 1]);
}

/* Only makes the calls. Whether there is a check of this name and it answers
   as the plain one does. */
static int make_calls(unsigned long calls, const char *name, const char *whose)
{
    for (const struct measured *of = all_measured; of->name != NULL; of++) {
        if (strcmp(of->name, name) == 0) {
            unsigned long sum = calls_of(strcmp(whose, "plain") == 0 ? of->plain : of->library, calls);
            unsigned long expected = calls_of(of->plain, IMAGES);
            return sum == calls / IMAGES * expected;
        }
    }
    return 0;
}

int main(int argc, char **argv)
{
    unsigned long calls = argc > 1 ? strtoul(argv[1], NULL, 10) : 100000;
    image_put(&example, images[0]);
    for (unsigned i = 1; i < IMAGES; i++) {
        make_good(images[i], 4 * i + 4, i);
    }
    if (argc == 4) {
        return make_calls(calls, argv[2], argv[3]) ? 0 : 1;
    }
    for (const struct measured *of = all_measured; of->name != NULL; of++) {
        time_both(of, calls > 0 ? calls : 1);
    }
    return 0;
}
