/* A working day of a busy station, made call by call. */
#include "working.h"

#include <string.h>

enum {
    CALLS_A_CYCLE = 8,   /* at most, between two timer interrupts */
    MOST_TASKS = 18,     /* the others are for an operator while nobody runs */
    MOST_WAITERS = 6,    /* for events */
    LONGEST_WAIT = 120,  /* cycles */
    TRIES = 50
};

/* Modules from FIRST_CHILD on need no core: LINK takes these, since a child
   that waits for its parent's core would stay for ever, and so does an operator
   while nobody runs. */
enum { FIRST_CHILD = 9 };

static const struct directory station = {
    .modules = 12,
    .every = 5,
    .events = 0xffff,
    .module = {{1, 4, 1, 0x1000}, {1, 8, 0, 0x1400}, {1, 16, 0, 0x1800}, {2, 6, 1, 0x2000}, {2, 12, 0, 0x2400}, {2, 24, 0, 0x2800},
               {3, 10, 0, 0x3000}, {3, 20, 0, 0x3400}, {3, 40, 0, 0x3800}, {1, 0, 1, 0x4000}, {2, 0, 1, 0x4400}, {3, 0, 1, 0x4800}}
};

void working_image(uint8_t *bytes)
{
    image_put(&station, bytes);
}

void working_begin(struct working *day)
{
    uint8_t bytes[IMAGE_LENGTH];
    working_image(bytes);
    memset(day, 0, sizeof *day);
    random_seed(&day->random, 1972);
    executive_load(&day->executive, bytes, IMAGE_LENGTH);
}

unsigned working_tasks(const struct working *day)
{
    unsigned used = 0;
    for (int block = 1; block <= TASKS; block++) {
        used += day->executive.task[block].place != TASK_FREE;
    }
    return used;
}

/* ---- the choices: each fills in a call of its code, or answers 0 if there
   can be none now */

static int nothing_more(struct working *day, struct call *call)
{
    (void)day;
    (void)call;
    return 1;
}

static int in_its_turn(struct working *day, struct call *call)
{
    (void)call;
    return day->executive.channel != 0;
}

static int some_module(struct working *day, struct call *call)
{
    call->number = (uint8_t)random_below(&day->random, station.modules);
    return working_tasks(day) < MOST_TASKS;
}

static int without_core(struct working *day, struct call *call)
{
    call->number = (uint8_t)(FIRST_CHILD + random_below(&day->random, station.modules - FIRST_CHILD));
    return working_tasks(day) < TASKS;
}

static int some_child(struct working *day, struct call *call)
{
    return without_core(day, call) && working_tasks(day) < MOST_TASKS;
}

/* "Kind 1": some events of the station's sixteen. Some tasks never wait so:
   somebody has to be left to signal. */
static int on_events(struct working *day, struct call *call)
{
    unsigned ones = 1 + random_below(&day->random, 3);
    unsigned from = random_below(&day->random, 14);
    call->kind = ON_EVENTS;
    call->set = (((uint64_t)1 << ones) - 1) << from;
    call->value = (uint8_t)(1 + random_below(&day->random, ones));
    return day->executive.event_queue.count < MOST_WAITERS && working_tasks(day) < MOST_TASKS;
}

/* "Kind 3": a few cycles from now. */
static int after_interval(struct working *day, struct call *call)
{
    call->kind = AFTER_INTERVAL;
    call->amount = 1 + random_below(&day->random, LONGEST_WAIT);
    return 1;
}

static int schedule_on_events(struct working *day, struct call *call)
{
    return some_module(day, call) && on_events(day, call);
}

static int schedule_later(struct working *day, struct call *call)
{
    return some_module(day, call) && after_interval(day, call);
}

static int some_event(struct working *day, struct call *call)
{
    call->number = (uint8_t)random_below(&day->random, 16);
    return 1;
}

/* SIGNAL on: an event that the first waiter lacks, if anybody waits. */
static int signal_on(struct working *day, struct call *call)
{
    const struct executive *executive = &day->executive;
    call->value = 1;
    some_event(day, call);
    if (executive->event_queue.count > 0) {
        uint64_t lacked = executive->task[executive->event_queue.block[0]].set & ~executive->on;
        for (int i = 0; i < 16 && ((lacked >> call->number) & 1) == 0; i++) {
            call->number = (uint8_t)((call->number + 1) % 16);
        }
    }
    return 1;
}

static int some_transfer(struct working *day, struct call *call)
{
    call->number = (uint8_t)random_below(&day->random, 12);
    call->amount = 1 + random_below(&day->random, 4096);
    return request_lowest_free(&day->executive) != 0;
}

/* CHECK: the first request that the running task holds. */
static int own_request(struct working *day, struct call *call)
{
    for (int number = 1; number <= REQUESTS; number++) {
        if (day->executive.request[number].owner == day->executive.running) {
            call->number = (uint8_t)number;
            return 1;
        }
    }
    return 0;
}

/* A slip of a program: one of the calls that are refused. */
static int some_slip(struct working *day, struct call *call)
{
    static const struct call slips[] = {
        {.code = 2}, {.code = CHECK, .number = 17}, {.code = TEST_EVENT, .number = 40}, {.code = SCHEDULE, .number = 30},
        {.code = READ, .number = 3, .amount = 0}, {.code = WAIT, .kind = ON_EVENTS, .set = 3, .value = 3}
    };
    *call = slips[random_below(&day->random, sizeof slips / sizeof slips[0])];
    return 1;
}

struct choice {
    unsigned weight;
    uint8_t code;
    int (*fill)(struct working *day, struct call *call);
};

/* While a task runs; the weights add up to 100. */
static const struct choice running[] = {
    {10, TEST_EVENT, some_event}, {4, SIGNAL, signal_on}, {9, SIGNAL, some_event}, {12, DISPATCH_CHECK, nothing_more},
    {7, READ, some_transfer}, {6, WRITE, some_transfer}, {12, CHECK, own_request}, {6, WAIT, after_interval}, {4, WAIT, on_events},
    {4, SCHEDULE, some_module}, {2, SCHEDULE, schedule_on_events}, {3, SCHEDULE, schedule_later}, {2, LINK, some_child},
    {1, OPERATOR_START, some_module}, {7, END, nothing_more}, {1, PROGRAM_CHECK, nothing_more}, {1, FREEMAIN, nothing_more}, {6, IO_DONE, in_its_turn},
    {3, TIMER, some_slip}
};

/* While nobody runs: the channel goes on, or the operator starts something; or
   nothing comes before the timer interrupt. */
static const struct choice idle[] = {
    {60, IO_DONE, in_its_turn}, {10, OPERATOR_START, without_core}, {30, TIMER, nothing_more}
};

static const struct choice *choose(struct random *random, const struct choice *choices)
{
    unsigned at = random_below(random, 100);
    while (at >= choices->weight) {
        at -= choices->weight;
        choices++;
    }
    return choices;
}

/* A call by the weights, tried again until one can be made. */
static void make_call(struct working *day, struct call *call)
{
    for (int tries = 0; tries < TRIES; tries++) {
        const struct choice *choice = choose(&day->random, day->executive.running != 0 ? running : idle);
        memset(call, 0, sizeof *call);
        call->code = choice->code;
        if (choice->fill(day, call)) {
            return;
        }
    }
    memset(call, 0, sizeof *call);
    call->code = TIMER;
}

void working_next(struct working *day, uint8_t *bytes)
{
    struct call call = {.code = TIMER};
    if (day->left > 0) {
        day->left--;
        make_call(day, &call);
    }
    if (call.code == TIMER) {
        day->left = random_below(&day->random, CALLS_A_CYCLE + 1);
    }
    call_put(&call, bytes);
    executive_step(&day->executive, bytes, CALL_LENGTH);
}
