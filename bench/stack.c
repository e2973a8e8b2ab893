/* How much stack the exported functions take: each is called on a stack that
   was filled with one byte before, and what is not that byte afterwards was
   used. The calls are a program check that aborts 24 tasks, each linked to by
   the one before, and those of a working day, after either load. It fails where
   a function takes more than LIMIT bytes, so that a growth is noticed. */
#define _XOPEN_SOURCE 600
#include <stdio.h>
#include <stdlib.h>
#include <string.h>
#include <ucontext.h>

#include "call.h"
#include "khilzurgee.h"
#include "working.h"

enum {
    ROOM = 1 << 18,
    LIMIT = 40 << 10,
    FILL = 0xa5,
    NO_UNITS = 9,    /* a module of the station's image that needs no core */
    TASKS_IN_ALL = 24,
    DAY = 20000      /* calls of a working day */
};

static unsigned char room[ROOM];
static ucontext_t here, there;
static struct khilzurgee_tables tables;
static uint8_t image[IMAGE_LENGTH], call[CALL_LENGTH];
static struct khilzurgee_line answer;

static void check(void)
{
    answer.refusal = khilzurgee_image_check(image, IMAGE_LENGTH);
}

static void load(void)
{
    answer = khilzurgee_load(&tables, image, IMAGE_LENGTH);
}

static void load_lowest(void)
{
    answer = khilzurgee_load_lowest(&tables, image, IMAGE_LENGTH);
}

static void advance(void)
{
    answer = khilzurgee_advance(&tables, call, CALL_LENGTH);
}

static void nothing(void)
{
}

/* The bytes of the stack that a function used, with what the switch takes. */
static size_t used_by(void (*function)(void))
{
    size_t left = 0;
    memset(room, FILL, ROOM);
    if (getcontext(&there) != 0) {
        exit(1);
    }
    there.uc_stack.ss_sp = room;
    there.uc_stack.ss_size = ROOM;
    there.uc_link = &here;
    makecontext(&there, function, 0);
    if (swapcontext(&here, &there) != 0) {
        exit(1);
    }
    while (left < ROOM && room[left] == FILL) {
        left++;
    }
    return ROOM - left;
}

static size_t called(uint8_t code, uint8_t number)
{
    memset(call, 0, CALL_LENGTH);
    call[0] = code;
    call[2] = number;
    size_t used = used_by(advance);
    if (answer.refusal != 0) {
        fprintf(stderr, "bench: a call was refused\n");
        exit(1);
    }
    return used;
}

static size_t larger(size_t a, size_t b)
{
    return a > b ? a : b;
}

/* What a call of a working day takes at most, after this load. */
static size_t most_after(void (*by)(void))
{
    static struct working day;
    size_t most = 0;
    by();
    working_begin(&day);
    for (int i = 0; i < DAY; i++) {
        working_next(&day, call);
        most = larger(most, used_by(advance));
    }
    return most;
}

int main(void)
{
    size_t none = used_by(nothing);
    working_image(image);
    size_t checking = used_by(check) - none;
    size_t by_lowest = used_by(load_lowest);
    size_t loading = larger(by_lowest, used_by(load)) - none;
    called(OPERATOR_START, NO_UNITS);
    for (int i = 1; i < TASKS_IN_ALL; i++) {
        called(LINK, NO_UNITS);
    }
    size_t abort = called(PROGRAM_CHECK, 0) - none;
    size_t most = most_after(load_lowest);
    most = larger(most, most_after(load)) - none;
    printf("stack, in bytes: the image check %zu, a load %zu, the program check that aborts %d tasks %zu, a call of a working day up to %zu\n", checking,
           loading, TASKS_IN_ALL, abort, most);
    if (checking > LIMIT || loading > LIMIT || abort > LIMIT || most > LIMIT) {
        fprintf(stderr, "bench: more than %d bytes of stack\n", LIMIT);
        return 1;
    }
    return 0;
}
