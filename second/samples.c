/* Tables made by hand, field by field, and the calls that lead to them. */
#include "cases.h"

#include <string.h>

/* Eight modules (level, units): 0 (1, 0), 1 (1, 8), 2 (2, 60), 3 (3, 4),
   4 (1, 50), 5 (3, 60), 6 (2, 4), 7 (3, 0); N 2; the events 0 to 7. */
#define EIGHT_MODULES                                                   \
    {.modules = 8, .every = 2, .defined = 255,                          \
     .entries = {{1, 0, 0, 0}, {1, 8, 0, 0}, {2, 60, 0, 0}, {3, 4, 0, 0}, \
                 {1, 50, 0, 0}, {3, 60, 0, 0}, {2, 4, 0, 0}, {3, 0, 0, 0}}}

/* Just loaded: every block is free. */
static const struct khilzurgee_tables loaded = {
    .directory = EIGHT_MODULES,
    .free_tasks = 0x1fffffe,
    .free_requests = 0x1fffe,
    .holes = SMALLEST_HOLE,
};

/* A block in every place. The event queue is 5, 6; ready are 15, 16 and 2 and
   12; the core queues are 17 and 3, 4 and 18; the time queue is 7, 11, 8; the
   channel queue is 28, 29, 26, which are the requests 4, 5 and 2. The clock is 5,
   and the waits began at 2, 3, 4 and 5. */
static const struct khilzurgee_tables sample = {
    .directory = EIGHT_MODULES,
    .clock = 5,
    .on = 0x2,
    .signalled = 0x6,
    .running = 14,
    .channel = 3,
    .free_tasks = 0x1f80000,
    .free_requests = 0x1ffc0,
    .pools = {0, 0xffff, 0xfffffffffffffff, 0xff},
    .tasks = {
        [1] = {.place = ENDING, .since = 3, .program = 3, .core = CORE_HELD},
        [2] = {.place = READY, .program = 2, .core = CORE_HELD},
        [3] = {.place = WAITS_FOR_CORE, .since = 2, .program = 2},
        [4] = {.place = WAITS_FOR_CORE, .since = 2, .program = 2},
        [5] = {.place = WAITS_FOR_EVENTS, .since = 2, .program = 3, .count = 2,
               .events = 6},
        [6] = {.place = WAITS_FOR_EVENTS, .since = 2, .count = 1, .events = 8},
        [7] = {.place = WAITS_FOR_TIME, .since = 2, .time = 50},
        [8] = {.place = WAITS_FOR_TIME, .since = 2, .time = 70},
        [9] = {.place = IN_LINK, .since = 3},
        [10] = {.place = IN_CHECK, .since = 3, .program = 1, .core = CORE_HELD,
                .request = 3},
        [11] = {.place = WAITS_FOR_TIME, .since = 4, .program = 1,
                .core = CORE_GIVEN_BACK, .time = 60},
        [12] = {.place = READY, .program = 3, .core = CORE_HELD, .start = 4},
        [13] = {.place = IN_LINK, .since = 4, .parent = 9},
        [14] = {.place = RUNNING, .parent = 13},
        [15] = {.place = READY},
        [16] = {.place = READY, .program = 1, .core = CORE_HELD, .start = 8},
        [17] = {.place = WAITS_FOR_CORE, .since = 5, .program = 4},
        [18] = {.place = WAITS_FOR_CORE, .since = 5, .program = 5},
    },
    .requests = {
        [1] = {DONE, 1, 7, READ, 80},
        [2] = {QUEUED, 1, 7, READ, 81},
        [3] = {ON_CHANNEL, 10, 8, READ, 10},
        [4] = {QUEUED, 11, 9, WRITE, 20},
        [5] = {QUEUED, 14, 5, READ, 6},
    },
    .threads = {
        .fwd = {[5] = 6, [15] = 16, [3] = 4, [7] = 11, [11] = 8, [28] = 29,
                [29] = 26},
        .back = {[6] = 5, [16] = 15, [4] = 3, [11] = 7, [8] = 11, [29] = 28,
                 [26] = 29},
        .first = {5, 15, 2, 12, 17, 3, 18, 7, 28},
        .last = {6, 16, 2, 12, 17, 4, 18, 8, 26},
    },
    .holes = SMALLEST_HOLE,
};

/* The calls that lead to the sample. */
static const struct call sample_calls[] = {
    {TIMER, 0, 0, 0, 0, 0},
    {TIMER, 0, 0, 0, 0, 0},
    {OPERATOR_START, 0, 3, 0, 0, 0}, /* task 1 runs */
    {READ, 0, 7, 0, 80, 0},          /* request 1, on the channel */
    {READ, 0, 7, 0, 81, 0},          /* 2, queued */
    {SCHEDULE, AT_ONCE, 2, 0, 0, 0}, /* task 2 gets its core */
    {SCHEDULE, AT_ONCE, 2, 0, 0, 0}, /* 3 and 4 wait for theirs */
    {SCHEDULE, AT_ONCE, 2, 0, 0, 0},
    {SCHEDULE, ON_EVENTS, 3, 2, 0, 0x6},     /* 5 */
    {SCHEDULE, ON_EVENTS, 0, 1, 0, 0x8},     /* 6 */
    {SCHEDULE, AT_TIME, 0, 0, 50, 0},        /* 7 */
    {SCHEDULE, AFTER_INTERVAL, 0, 0, 68, 0}, /* 8 */
    {TIMER, 0, 0, 0, 0, 0},                  /* the clock is 3 */
    {SCHEDULE, AT_ONCE, 0, 0, 0, 0},         /* 9 */
    {SCHEDULE, AT_ONCE, 1, 0, 0, 0},         /* 10 */
    {SCHEDULE, AT_ONCE, 1, 0, 0, 0},         /* 11 */
    {SCHEDULE, AT_ONCE, 3, 0, 0, 0},         /* 12 */
    {SIGNAL, 0, 1, 1, 0, 0},  /* event 1 is on */
    {SIGNAL, 0, 2, 0, 0, 0},  /* 2 is off; the others were never signalled */
    {END, 0, 0, 0, 0, 0},     /* task 1 waits as ending, 9 runs */
    {LINK, 0, 0, 0, 0, 0},    /* 13 is made, 10 runs */
    {READ, 0, 8, 0, 10, 0},   /* request 3 */
    {CHECK, 0, 3, 0, 0, 0},   /* task 10 waits for that, 11 runs */
    {FREEMAIN, 0, 0, 0, 0, 0},
    {WRITE, 0, 9, 0, 20, 0},  /* request 4; under it FREEMAIN is refused */
    {IO_DONE, 0, 0, 0, 0, 0}, /* request 1 is done, 3 goes on the channel */
    {TIMER, 0, 0, 0, 0, 0},          /* the clock is 4 */
    {WAIT, AT_TIME, 0, 0, 60, 0},    /* 13 runs */
    {LINK, 0, 0, 0, 0, 0},           /* 14 is made, and runs */
    {SCHEDULE, AT_ONCE, 0, 0, 0, 0}, /* 15 */
    {SCHEDULE, AT_ONCE, 1, 0, 0, 0}, /* 16 */
    {READ, 0, 5, 0, 6, 0},           /* request 5 */
    {TIMER, 0, 0, 0, 0, 0},          /* the clock is 5 */
    {SCHEDULE, AT_ONCE, 4, 0, 0, 0}, /* 17 and 18 wait for core */
    {SCHEDULE, AT_ONCE, 5, 0, 0, 0},
};

/* Module 0 is started, and 23 times LINKed to: task 24 runs, each other is its
   child's parent, since clock 0. */
static void make_chain(struct khilzurgee_tables *tables)
{
    *tables = loaded;
    for (uint8_t block = 1; block <= TASKS; block++) {
        tables->tasks[block].place = IN_LINK;
        tables->tasks[block].parent = (uint8_t)(block - 1);
    }
    tables->tasks[TASKS].place = RUNNING;
    tables->running = TASKS;
    tables->free_tasks = 0;
}

/* ---- Tables to call on: 3 modules of level 2 without core, N 2, the events
   0, 1 and 63. */

/* Task 1 runs, and the others up to `tasks` are ready. Of the requests up to
   `requests`, 1 is on the channel and the others are done; 2 is of task 2, and
   the others are of task 1. */
static void make_standing(struct khilzurgee_tables *tables, uint8_t tasks,
                          uint8_t requests)
{
    struct khilzurgee_threads *threads = &tables->threads;
    memset(tables, 0, sizeof *tables);
    tables->holes = SMALLEST_HOLE;
    tables->directory.modules = 3;
    tables->directory.every = 2;
    tables->directory.defined = UINT64_C(0x8000000000000003);
    for (int module = 0; module < 3; module++) {
        tables->directory.entries[module].level = 2;
    }
    tables->running = 1;
    tables->channel = 1;
    tables->tasks[1].place = RUNNING;
    threads->first[2] = 2;
    threads->last[2] = tasks;
    for (uint8_t block = 2; block <= tasks; block++) {
        tables->tasks[block].place = READY;
        threads->back[block] = block == 2 ? 0 : (uint8_t)(block - 1);
        threads->fwd[block] = block == tasks ? 0 : (uint8_t)(block + 1);
    }
    for (uint8_t number = 1; number <= requests; number++) {
        tables->requests[number] = (struct khilzurgee_request)
            {number == 1 ? ON_CHANNEL : DONE, number == 2 ? 2 : 1, 7, READ, 4};
    }
    tables->free_tasks = loaded.free_tasks & ~((UINT32_C(2) << tasks) - 1);
    tables->free_requests =
        loaded.free_requests & ~((UINT32_C(2) << requests) - 1);
}

/* Two tasks; the requests 1, 2, 3 and 16. */
static void make_usual(struct khilzurgee_tables *tables)
{
    make_standing(tables, 2, 3);
    tables->requests[16] = tables->requests[3];
    tables->free_requests &= 0xffff;
}

/* The same; both tasks wait for event 0, since clock 0. */
static void make_idle(struct khilzurgee_tables *tables)
{
    make_usual(tables);
    memset(&tables->threads, 0, sizeof tables->threads);
    for (int block = 1; block <= 2; block++) {
        tables->tasks[block].place = WAITS_FOR_EVENTS;
        tables->tasks[block].count = 1;
        tables->tasks[block].events = 1;
    }
    tables->running = 0;
    tables->threads.first[0] = 1;
    tables->threads.fwd[1] = 2;
    tables->threads.back[2] = 1;
    tables->threads.last[0] = 2;
}

static void make_full(struct khilzurgee_tables *tables)
{
    make_standing(tables, TASKS, REQUESTS);
    tables->clock = 1;
    tables->channel = 0;
    tables->requests[1].place = DONE;
}

static void make_last(struct khilzurgee_tables *tables)
{
    make_standing(tables, TASKS - 1, REQUESTS - 1);
    tables->clock = CLOCK_END - 1;
}

struct khilzurgee_tables tables_of(enum base base)
{
    struct khilzurgee_tables tables = base == SAMPLE ? sample : loaded;
    switch (base) {
    case LOADED:
    case SAMPLE:
        break;
    case CHAIN:
        make_chain(&tables);
        break;
    case USUAL:
        make_usual(&tables);
        break;
    case IDLE:
        make_idle(&tables);
        break;
    case FULL:
        make_full(&tables);
        break;
    case LAST:
        make_last(&tables);
        break;
    }
    return tables;
}

void tables_edit(struct khilzurgee_tables *tables, const struct edit *edits,
                 size_t count)
{
    for (size_t i = 0; i < count && edits[i].size != 0; i++) {
        number_put((uint8_t *)tables + edits[i].at, edits[i].size,
                   edits[i].number);
    }
}

/* ---- The calls that lead there. */

/* One call on the library; 0 if it is refused. */
static int accepted(struct khilzurgee_tables *tables, struct call call)
{
    uint8_t bytes[CALL_LENGTH];
    call_put(&call, bytes);
    return khilzurgee_advance(tables, bytes, CALL_LENGTH).refusal == 0;
}

static int sample_reached(struct khilzurgee_tables *tables)
{
    size_t calls = sizeof sample_calls / sizeof sample_calls[0];
    for (size_t i = 0; i < calls; i++) {
        if (!accepted(tables, sample_calls[i])) {
            return 0;
        }
    }
    return 1;
}

static int chain_reached(struct khilzurgee_tables *tables)
{
    const struct call start = {OPERATOR_START, 0, 0, 0, 0, 0};
    const struct call link = {LINK, 0, 0, 0, 0, 0};
    for (int block = 1; block <= TASKS; block++) {
        if (!accepted(tables, block == 1 ? start : link)) {
            return 0;
        }
    }
    return 1;
}

int tables_reached(struct khilzurgee_tables *tables, enum base base,
                   enum holes holes)
{
    struct khilzurgee_line line;
    struct executive executive;
    uint8_t image[IMAGE_LENGTH];
    if (tables_read(&executive, &loaded) != NULL) {
        return 0;
    }
    image_put(&executive.directory, image);
    line = holes == SMALLEST_HOLE
        ? khilzurgee_load(tables, image, IMAGE_LENGTH)
        : khilzurgee_load_lowest(tables, image, IMAGE_LENGTH);
    if (line.refusal != 0) {
        return 0;
    }
    return base == SAMPLE ? sample_reached(tables)
        : base == CHAIN ? chain_reached(tables) : 1;
}
