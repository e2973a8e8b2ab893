/* Compares the exported image check and the exported block check with the
   independent ones of second/ on many images, and the first with the answer
   that is known from how the image was made, where it is.

   usage: test_check [SLIP]

   With SLIP, one of editor/wrong.c, that wrong check stands in for the
   exported one, to see that this program finds it out. Exit status: 0 no
   difference, 1 some, or an answer that hardly occurred; 2 it could not run. */
#define _DEFAULT_SOURCE
#include <signal.h>
#include <stdio.h>
#include <stdlib.h>
#include <string.h>
#include <sys/mman.h>
#include <unistd.h>

#include "groups.h"
#include "image.h"
#include "khilzurgee.h"
#include "wrong.h"

enum {
    ANSWERS = 8,    /* 0 to 7 */
    ENOUGH = 100,   /* each answer has to occur so often */
    SHOWN = 5,      /* so many differences are shown */
    REGION = 65536  /* a multiple of every page size */
};

static uint8_t *room; /* REGION bytes, and none before or after can be read */
static check_function *tested, *tested_block;
static const char *group;
static unsigned long images, differences, occurred[ANSWERS];

static int exported(const uint8_t *bytes, size_t length)
{
    return khilzurgee_image_check(bytes, length);
}

static int exported_block(const uint8_t *bytes, size_t length)
{
    return khilzurgee_block_check(bytes, length);
}

/* The check went beyond the room: no more can be tried. */
static void outside(int signal_number)
{
    static const char words[] = "the check reads or writes outside the image's bytes\n";
    (void)signal_number;
    _Exit(write(STDOUT_FILENO, words, sizeof words - 1) < 0 ? 2 : 1);
}

static int make_room(void)
{
    uint8_t *start = mmap(NULL, 3 * REGION, PROT_READ | PROT_WRITE,
                          MAP_PRIVATE | MAP_ANONYMOUS, -1, 0);
    if (start == MAP_FAILED || mprotect(start, REGION, PROT_NONE) != 0
        || mprotect(start + 2 * REGION, REGION, PROT_NONE) != 0) {
        return 0;
    }
    room = start + REGION;
    return signal(SIGSEGV, outside) != SIG_ERR;
}

/* Asks the tested checks about a copy of the image at 'place'. Whether they
   answer 'expected' and 'check' and leave the copy as it was. */
static int agrees(uint8_t *place, const uint8_t *bytes, size_t length, int expected, int check)
{
    memcpy(place, bytes, length);
    return tested(place, length) == expected && tested_block(place, length) == check
        && memcmp(place, bytes, length) == 0;
}

/* With its start and then with its end where nothing beyond can be read. */
void try_image(const uint8_t *bytes, size_t length, int known)
{
    int expected = image_refusal(bytes, length);
    int check = length == IMAGE_LENGTH ? (int)image_check_value(bytes) : 0;
    images++;
    if (expected >= 0 && expected < ANSWERS) {
        occurred[expected]++;
    }
    if (agrees(room, bytes, length, expected, check)
        && agrees(room + REGION - length, bytes, length, expected, check)
        && (known == UNKNOWN || known == expected)) {
        return;
    }
    differences++;
    if (differences <= SHOWN) {
        printf("%s, image %lu of %zu bytes: the check answers %d, the second %d",
               group, images, length, tested(bytes, length), expected);
        printf("; the block's is %d, the second %d", tested_block(bytes, length), check);
        if (known != UNKNOWN) {
            printf(", known is %d", known);
        }
        printf("\n");
    }
}

/* Prints how often each answer occurred. Whether each did so often enough. */
static int report(void)
{
    int enough = 1;
    printf("answer    images\n");
    for (int i = 0; i < ANSWERS; i++) {
        int thin = occurred[i] < ENOUGH;
        printf("%6d %9lu%s\n", i, occurred[i], thin ? "  too few" : "");
        enough = enough && !thin;
    }
    printf("%lu images, %lu differences\n", images, differences);
    return enough;
}

int main(int argc, char **argv)
{
    check_function *wrong = argc > 1 ? wrong_check(argv[1]) : NULL;
    check_function *wrong_of_block = argc > 1 ? wrong_block(argv[1]) : NULL;
    tested = wrong != NULL ? wrong : exported;
    tested_block = wrong_of_block != NULL ? wrong_of_block : exported_block;
    if (argc > 2 || (argc > 1 && wrong == NULL && wrong_of_block == NULL) || !make_room()) {
        fprintf(stderr, "test_check: no such slip, or no memory\n");
        return 2;
    }
    for (size_t i = 0; groups[i].name != NULL; i++) {
        unsigned long earlier = images;
        group = groups[i].name;
        groups[i].run();
        printf("%-26s %7lu\n", group, images - earlier);
        fflush(stdout);
    }
    return report() && differences == 0 ? 0 : 1;
}
