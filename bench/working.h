/* A working day of a busy station, made call by call. The same seed makes the
   same day on every machine. */
#ifndef WORKING_H
#define WORKING_H

#include "executive.h"
#include "random.h"

/* A day in the making. The second program's tables steer the choice, so that
   most calls are accepted and the tables stay well filled. */
struct working {
    struct random random;
    struct executive executive;
    unsigned left; /* calls before the next timer interrupt */
};

/* The station's image. */
void working_image(uint8_t *bytes);

/* The start of the day: the image is loaded. */
void working_begin(struct working *day);

/* Writes the next call; the day's tables go on with it. */
void working_next(struct working *day, uint8_t *bytes);

/* How many task blocks are in use now. */
unsigned working_tasks(const struct working *day);

#endif
