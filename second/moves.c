/* The generator's moves: one call each, steered by the tables. */
#include "moves.h"

enum { NEAR = 6, TRIES = 8 };

/* A few of the defined events, as a set. */
uint64_t some_events(const struct executive *executive, struct random *random)
{
    uint64_t set = 0;
    int wanted = 1 + (int)random_below(random, 4);
    for (int tries = 0; tries < 300 && wanted > 0; tries++) {
        uint64_t event = (uint64_t)1 << random_below(random, EVENTS);
        if ((event & executive->directory.events & ~set) != 0) {
            set |= event;
            wanted--;
        }
    }
    return set;
}

/* Any module. */
static int any_module(const struct executive *executive, struct random *random)
{
    return (int)random_below(random, executive->directory.modules);
}

/* Would a task of the module get its core at once? */
static int would_fit(const struct executive *executive, int number)
{
    const struct module *module = &executive->directory.module[number];
    int run = 0;
    if (module->units == 0) {
        return 1;
    }
    if (executive->core_queue[module->level].count > 0) {
        return 0;
    }
    for (int unit = 0; unit < UNITS && run < module->units; unit++) {
        run = executive->holder[module->level][unit] == 0 ? run + 1 : 0;
    }
    return run >= module->units;
}

/* For LINK: nearly always a module whose core can be had, since a child that
   waits for its parent's core stays for ever. */
static int child_module(const struct executive *executive,
                        struct random *random, struct call *call)
{
    for (int i = 0; i < TRIES; i++) {
        int number = any_module(executive, random);
        if (would_fit(executive, number) || random_one_in(random, 300)) {
            call->number = (uint8_t)number;
            return 1;
        }
    }
    return 0;
}

/* A condition of kind 1. */
static int on_events(const struct executive *executive, struct random *random,
                     struct call *call)
{
    call->kind = ON_EVENTS;
    call->set = some_events(executive, random);
    if (call->set == 0) {
        return 0;
    }
    unsigned ones = (unsigned)count_ones(call->set);
    call->value = (uint8_t)(random_one_in(random, 2)
        ? ones : 1 + random_below(random, ones));
    return 1;
}

/* A condition of kind 2 or 3, mostly near, so that times are often equal. */
static int at_time(const struct executive *executive, struct random *random,
                   struct call *call)
{
    uint32_t left = CLOCK_END - executive->clock;
    uint32_t interval = random_below(random, NEAR);
    if (random_one_in(random, 60)) {
        interval = left - random_below(random, 2);
    }
    if (random_one_in(random, 2)) {
        call->kind = AFTER_INTERVAL;
        call->amount = interval <= left ? interval : left;
    } else {
        call->kind = AT_TIME;
        call->amount = executive->clock + (interval <= left ? interval : left);
        if (random_one_in(random, 10)) {
            call->amount = random_below(random, NEAR);
        }
    }
    return 1;
}

/* An event to signal: mostly one that a waiter still lacks. */
static int some_event(const struct executive *executive, struct random *random,
                      int lacked, struct call *call)
{
    uint64_t set = executive->directory.events;
    const struct queue *queue = &executive->event_queue;
    if (lacked && queue->count > 0 && !random_one_in(random, 4)) {
        int block = queue->block[random_below(random, queue->count)];
        set = executive->task[block].set & ~executive->on;
    }
    if (set == 0) {
        return 0;
    }
    unsigned skip = random_below(random, (unsigned)count_ones(set));
    for (int event = 0; event < EVENTS; event++) {
        if (((set >> event) & 1) != 0) {
            if (skip == 0) {
                call->number = (uint8_t)event;
                return 1;
            }
            skip--;
        }
    }
    return 0;
}

/* A request, at the borders now and then. */
static int some_request(struct random *random, struct call *call)
{
    static const uint32_t counts[] = {1, 65535, 4, 80, 512, 4096};
    call->code = random_one_in(random, 2) ? READ : WRITE;
    call->number = (uint8_t)(random_one_in(random, 8)
        ? DEVICES - 1 : random_below(random, DEVICES));
    call->amount = counts[random_below(random, 6)];
    return 1;
}

/* One of the running task's requests. */
static int own_request(const struct executive *executive,
                       struct random *random, struct call *call)
{
    unsigned from = random_below(random, REQUESTS);
    for (unsigned i = 0; i < REQUESTS; i++) {
        unsigned number = 1 + (from + i) % REQUESTS;
        if (executive->request[number].owner == executive->running) {
            call->number = (uint8_t)number;
            return executive->running != 0;
        }
    }
    return 0;
}

/* Any call at all, with small numbers so that many are nearly good. */
static int any_call(struct random *random, struct call *call)
{
    call->code = (uint8_t)random_below(random, random_one_in(random, 10)
                                                   ? 256 : CODES + 1);
    call->kind = (uint8_t)random_below(random, 5);
    call->number = (uint8_t)random_below(random, random_one_in(random, 4)
                                                     ? 256 : 8);
    call->value = (uint8_t)random_below(random, 4);
    call->amount = random_below(random, random_one_in(random, 4)
                                            ? UINT32_MAX : 20);
    call->set = random_next(random);
    call->set &= random_next(random);
    call->set &= random_next(random);
    return 1;
}

/* The fields of a call that stands for its code alone, or with a module. */
static int plain_call(const struct executive *executive, struct random *random,
                      enum move move, struct call *call)
{
    static const uint8_t codes[MOVES] = {
        [MOVE_START] = OPERATOR_START,
        [MOVE_SCHEDULE] = SCHEDULE,
        [MOVE_SCHEDULE_EVENTS] = SCHEDULE,
        [MOVE_SCHEDULE_TIME] = SCHEDULE,
        [MOVE_LINK] = LINK,
        [MOVE_WAIT_EVENTS] = WAIT,
        [MOVE_WAIT_TIME] = WAIT,
        [MOVE_SIGNAL_ON] = SIGNAL,
        [MOVE_SIGNAL_OFF] = SIGNAL,
        [MOVE_TEST] = TEST_EVENT,
        [MOVE_DISPATCH_CHECK] = DISPATCH_CHECK,
        [MOVE_READ_WRITE] = READ,
        [MOVE_CHECK] = CHECK,
        [MOVE_END] = END,
        [MOVE_FREEMAIN] = FREEMAIN,
        [MOVE_TIMER] = TIMER,
        [MOVE_IO_DONE] = IO_DONE,
        [MOVE_PROGRAM_CHECK] = PROGRAM_CHECK,
    };
    call->code = codes[move];
    if (call->code == LINK) {
        return child_module(executive, random, call);
    }
    if (call->code == SCHEDULE || call->code == OPERATOR_START) {
        call->number = (uint8_t)any_module(executive, random);
        return task_lowest_free(executive) != 0;
    }
    return 1;
}

/* Makes a call of that sort; 0 if there can be none now. */
int move_make(enum move move, const struct executive *executive,
              struct random *random, struct call *call)
{
    if (move == MOVE_REFUSED) {
        return aim_at_refusal(executive, random, call);
    }
    if (move == MOVE_ANY) {
        return any_call(random, call);
    }
    if (!plain_call(executive, random, move, call)
        || (code_table[call->code].needs_running && executive->running == 0)) {
        return 0;
    }
    switch (move) {
    case MOVE_SCHEDULE_EVENTS:
    case MOVE_WAIT_EVENTS:
        return on_events(executive, random, call);
    case MOVE_SCHEDULE_TIME:
    case MOVE_WAIT_TIME:
        return at_time(executive, random, call);
    case MOVE_SIGNAL_ON:
        call->value = 1;
        return some_event(executive, random, 1, call);
    case MOVE_SIGNAL_OFF:
    case MOVE_TEST:
        return some_event(executive, random, 0, call);
    case MOVE_READ_WRITE:
        return some_request(random, call);
    case MOVE_CHECK:
        return own_request(executive, random, call);
    case MOVE_IO_DONE:
        return executive->channel != 0;
    default:
        return 1;
    }
}
