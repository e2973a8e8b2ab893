/* What the generator can do next, and in which mixture. */
#ifndef MOVES_H
#define MOVES_H

#include "executive.h"
#include "random.h"

enum move {
    MOVE_START,
    MOVE_SCHEDULE,
    MOVE_SCHEDULE_EVENTS,
    MOVE_SCHEDULE_TIME,
    MOVE_LINK,
    MOVE_WAIT_EVENTS,
    MOVE_WAIT_TIME,
    MOVE_SIGNAL_ON,
    MOVE_SIGNAL_OFF,
    MOVE_TEST,
    MOVE_DISPATCH_CHECK,
    MOVE_READ_WRITE,
    MOVE_CHECK,
    MOVE_END,
    MOVE_FREEMAIN,
    MOVE_TIMER,
    MOVE_IO_DONE,
    MOVE_PROGRAM_CHECK,
    MOVE_REFUSED,
    MOVE_ANY,
    MOVES
};

enum { UNITS_CHOICES = 6, EVERY_CHOICES = 3 };

/* A profile: the images it makes, and how often it does what while the tables
   fill and while they drain. */
struct profile {
    const char *name;
    uint8_t units[UNITS_CHOICES];
    uint8_t every[EVERY_CHOICES];
    uint64_t events;
    uint8_t only_level; /* 0 if modules are of any level */
    int bad_images;
    unsigned fill[MOVES];
    unsigned drain[MOVES];
};

const struct profile *profile_find(const char *name);

/* Makes a call of that sort; 0 if there can be none now. */
int move_make(enum move move, const struct executive *executive,
              struct random *random, struct call *call);

/* aims.c: a call aimed at one of the refusals, or next to its border. */
int aim_at_refusal(const struct executive *executive, struct random *random,
                   struct call *call);
uint64_t some_events(const struct executive *executive, struct random *random);

#endif
