/* Tests the tables as bytes: plays sessions on two sets of tables that began
   with different bytes, and holds the two to each other, to the last byte. Each
   session is played after either load.

   usage: bytes FILE..        each an image of 512 bytes, then calls of 16

   Exit status: 0 the bytes were right, 1 not, 2 something could not be read. */
#include <errno.h>
#include <stdio.h>
#include <stdlib.h>
#include <string.h>

#include "khilzurgee.h"

enum {
    RIGHT = 0,
    WRONG = 1,
    FAILED = 2
};

/* One executive that begins with zeros, and one that begins with 0xaa. */
static struct khilzurgee_tables first, second;
static unsigned long calls, refused;

typedef struct khilzurgee_line load_function(struct khilzurgee_tables *tables, const uint8_t *image, size_t length);

static void wrong(const char *what, const char *name)
{
    printf("%s: %s\n", name, what);
    exit(WRONG);
}

static int same(const struct khilzurgee_tables *a, const struct khilzurgee_tables *b)
{
    return memcmp(a, b, sizeof *a) == 0;
}

static int all_zero(const struct khilzurgee_tables *t)
{
    static const struct khilzurgee_tables zero;
    return same(t, &zero);
}

/* Leaves this byte all over the stack that the next call will take: what a
   function does not write shows it. */
static void dirty(int byte)
{
    static void *(*volatile fill)(void *, int, size_t) = memset;
    uint8_t stack[200 * 1024];
    fill(stack, byte, sizeof stack);
}

/* The same load into both. */
static struct khilzurgee_line load(load_function *by, const uint8_t *image, size_t length, const char *name)
{
    memset(&first, 0, sizeof first);
    memset(&second, 0xaa, sizeof second);
    dirty(0x55);
    struct khilzurgee_line line = by(&first, image, length);
    dirty(0xaa);
    by(&second, image, length);
    if (!same(&first, &second)) {
        wrong("the same load gives other bytes", name);
    }
    if (line.refusal != KHILZURGEE_ACCEPTED && !all_zero(&second)) {
        wrong("a refused load leaves a byte that is not zero", name);
    }
    return line;
}

/* The same call on both. Every 64th time the second is stored as bytes, at an
   odd address, and read back into other tables. */
static void advance(const uint8_t *call, size_t length, const char *name)
{
    static uint8_t stored[sizeof second + 1];
    struct khilzurgee_tables before = first;
    if (++calls % 64 == 0) {
        memcpy(stored + 1, &second, sizeof second);
        memset(&second, 0, sizeof second);
        memcpy(&second, stored + 1, sizeof second);
    }
    dirty(0x55);
    struct khilzurgee_line line = khilzurgee_advance(&first, call, length);
    dirty(0xaa);
    khilzurgee_advance(&second, call, length);
    if (!same(&first, &second)) {
        wrong("the same call leaves other bytes", name);
    }
    if (line.refusal != 0) {
        refused++;
        if (!same(&first, &before)) {
            wrong("a refused call changes a byte", name);
        }
    }
}

static void play(load_function *by, FILE *file, const char *name)
{
    uint8_t image[KHILZURGEE_IMAGE_LENGTH];
    uint8_t call[KHILZURGEE_CALL_LENGTH];
    size_t length = fread(image, 1, sizeof image, file);
    load(by, image, length / 2, name);
    image[0] ^= 1;
    load(by, image, length, name);
    image[0] ^= 1;
    if (load(by, image, length, name).refusal != KHILZURGEE_ACCEPTED) {
        return;
    }
    while ((length = fread(call, 1, sizeof call, file)) > 0) {
        advance(call, length, name);
    }
}

int main(int argc, char **argv)
{
    for (int i = 1; i < argc; i++) {
        FILE *file = fopen(argv[i], "rb");
        if (file == NULL) {
            fprintf(stderr, "bytes: %s: %s\n", argv[i], strerror(errno));
            return FAILED;
        }
        play(khilzurgee_load, file, argv[i]);
        rewind(file);
        play(khilzurgee_load_lowest, file, argv[i]);
        fclose(file);
    }
    if (calls < 1000 || refused == 0) {
        wrong("too few calls to say anything", "bytes");
    }
    printf("%lu calls, %lu of them refused, leave the same bytes in tables that began with others\n", calls, refused);
    return RIGHT;
}
