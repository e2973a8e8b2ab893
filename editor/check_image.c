/* Reads a phase image and says in words what the image check finds.

   usage: check_image FILE        - for FILE is the standard input

   Exit status: 0 accepted, 1 refused, 2 the image could not be read. */
#include <errno.h>
#include <stdio.h>
#include <string.h>

#include "explain.h"
#include "khilzurgee.h"

enum {
    ACCEPTED = 0,
    REFUSED = 1,
    FAILED = 2,
    MOST = KHILZURGEE_IMAGE_LENGTH + 1 /* one byte more shows a file too long */
};

static int fail(const char *name, const char *doing)
{
    int why = errno;
    fflush(stdout);
    fprintf(stderr, "check_image: %s: cannot %s", name, doing);
    if (why != 0) {
        fprintf(stderr, ": %s", strerror(why));
    }
    fprintf(stderr, "\n");
    return FAILED;
}

/* How many bytes lie from 'start' to the end of the file, or -1 where that
   cannot be known, as of a pipe. 'held' bytes have been read already. */
static long whole_length(FILE *file, long start, size_t held)
{
    if (held < MOST) {
        return (long)held;
    }
    if (start < 0 || fseek(file, 0, SEEK_END) != 0) {
        return -1;
    }
    long end = ftell(file);
    return end - start >= (long)held ? end - start : -1;
}

/* Asks the check about what the file holds and explains its answer. */
static int check_file(FILE *file, const char *name)
{
    uint8_t bytes[MOST] = {0};
    long start = ftell(file);
    errno = 0;
    size_t held = fread(bytes, 1, sizeof bytes, file);
    if (ferror(file)) {
        return fail(name, "be read");
    }
    struct image image = {name, bytes, held, whole_length(file, start, held)};
    unsigned answer = khilzurgee_image_check(bytes, held);
    explain(&image, answer);
    errno = 0;
    if (fflush(stdout) != 0 || ferror(stdout)) {
        return fail("standard output", "be written");
    }
    return answer == KHILZURGEE_ACCEPTED ? ACCEPTED : REFUSED;
}

int main(int argc, char **argv)
{
    if (argc != 2) {
        fprintf(stderr, "usage: check_image FILE (- for the standard input)\n");
        return FAILED;
    }
    if (strcmp(argv[1], "-") == 0) {
        return check_file(stdin, "standard input");
    }
    errno = 0;
    FILE *file = fopen(argv[1], "rb");
    if (file == NULL) {
        return fail(argv[1], "be opened");
    }
    int status = check_file(file, argv[1]);
    fclose(file);
    return status;
}
