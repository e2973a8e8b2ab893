/* Tests that the structs of khilzurgee.h are those of the library: plays calls
   that set every field, and holds what this program reads there to what the
   rules say. Exit status: 0 every field is where the header has it, 1 not. */
#include <stdio.h>
#include <string.h>

#include "khilzurgee.h"

static int wrong;

static void is(const char *what, uint64_t found, uint64_t wanted)
{
    if (found != wanted) {
        printf("%s is %llu and not %llu\n", what, (unsigned long long)found, (unsigned long long)wanted);
        wrong = 1;
    }
}

#define IS(field, wanted) is(#field, (uint64_t)(field), wanted)

/* Two modules, N 5, events 0, 3 and 63 defined. */
static const uint8_t fields[] = {
    1, 2, 5, 0, 0, 0, 0, 0,              /* form, M, N, zero */
    9, 0, 0, 0, 0, 0, 0, 0x80,           /* defined events */
    2, 30, 1, 0, 0x78, 0x56, 0x34, 0x12, /* module 0 */
    3, 0, 0, 0, 7                        /* module 1 */
};

/* Three modules of level 2, N 1, event 0 defined. */
static const uint8_t chopped[] = {
    1, 3, 1, 0, 0, 0, 0, 0,
    1, 0, 0, 0, 0, 0, 0, 0,
    2, 8, 0, 0, 0, 0, 0, 0,
    2, 4, 0, 0, 0, 0, 0, 0,
    2, 48
};

/* The image that begins with these bytes. */
static void make_image(uint8_t *image, const uint8_t *head, size_t length)
{
    memset(image, 0, KHILZURGEE_IMAGE_LENGTH);
    memcpy(image, head, length);
    unsigned check = khilzurgee_block_check(image, KHILZURGEE_IMAGE_LENGTH);
    image[510] = (uint8_t)check;
    image[511] = (uint8_t)(check >> 8);
}

/* One call that has to be accepted; its answer. */
static struct khilzurgee_line call(struct khilzurgee_tables *t, uint8_t code,
                                   uint8_t kind, uint8_t number, uint8_t value,
                                   uint32_t amount, uint64_t set)
{
    uint8_t bytes[KHILZURGEE_CALL_LENGTH] = {code, kind, number, value};
    for (unsigned i = 0; i < 4; i++) {
        bytes[4 + i] = (uint8_t)(amount >> 8 * i);
    }
    for (unsigned i = 0; i < 8; i++) {
        bytes[8 + i] = (uint8_t)(set >> 8 * i);
    }
    struct khilzurgee_line line = khilzurgee_advance(t, bytes, sizeof bytes);
    is("the refusal of a call", line.refusal, 0);
    is("the running task of an answer", line.running, t->running);
    return line;
}

enum {
    LINK = 5,
    END = 6,
    SCHEDULE = 7,
    WAIT = 8,
    SIGNAL = 9,
    TEST_EVENT = 10,
    READ = 13,
    WRITE = 14,
    CHECK = 15,
    TIMER = 32,
    IO_DONE = 33,
    START = 35
};

static void after_load(const struct khilzurgee_tables *t)
{
    IS(t->directory.modules, 2);
    IS(t->directory.every, 5);
    IS(t->directory.defined, 0x8000000000000009u);
    IS(t->directory.entries[0].level, 2);
    IS(t->directory.entries[0].units, 30);
    IS(t->directory.entries[0].flags, 1);
    IS(t->directory.entries[0].point, 0x12345678u);
    IS(t->directory.entries[1].level, 3);
    IS(t->directory.entries[1].point, 7);
    IS(t->on, 0);
    IS(t->signalled, 0);
    IS(t->free_tasks, 0x1fffffeu);
    IS(t->free_requests, 0x1fffeu);
    IS(t->clock, 0);
    IS(t->running, 0);
    IS(t->holes, KHILZURGEE_SMALLEST_HOLE);
}

/* Of an event, by TEST EVENT. */
static uint8_t known(struct khilzurgee_tables *t, uint8_t event)
{
    return call(t, TEST_EVENT, 0, event, 0, 0, 0).result;
}

/* The place of a task block, and the reading of one that waits or 0. */
static void in_place(const struct khilzurgee_tables *t, unsigned block, uint8_t place, uint32_t since)
{
    char what[40];
    snprintf(what, sizeof what, "the place of block %u", block);
    is(what, t->tasks[block].place, place);
    snprintf(what, sizeof what, "the reading of block %u", block);
    is(what, t->tasks[block].since, since);
}

/* Task 1 starts and links to task 2, which signals 63 on and 0 off, and
   schedules 3 on events, 4 by time, 5 with core beside its own and 6, for which
   there is none; it reads, writes and waits in CHECK for the write, and 5
   runs. The clock goes on in between: 1 at the link, 2 at the first two that
   are scheduled, 3 at the others, 4 at the end. */
static void after_calls(struct khilzurgee_tables *t)
{
    call(t, TIMER, 0, 0, 0, 0, 0);
    call(t, START, 0, 1, 0, 0, 0);
    is("the child's block", call(t, LINK, 0, 0, 0, 0, 0).result, 2);
    call(t, TIMER, 0, 0, 0, 0, 0);
    call(t, SIGNAL, 0, 63, 1, 0, 0);
    call(t, SIGNAL, 0, 0, 0, 0, 0);
    is("an event that is off", known(t, 0), KHILZURGEE_EVENT_OFF);
    is("an event that is on", known(t, 63), KHILZURGEE_EVENT_ON);
    is("an event that was never signalled", known(t, 3), KHILZURGEE_EVENT_NEVER_SIGNALLED);
    call(t, SCHEDULE, 1, 1, 2, 0, 9);
    call(t, SCHEDULE, 2, 1, 0, 0x01020304, 0);
    call(t, TIMER, 0, 0, 0, 0, 0);
    call(t, SCHEDULE, 0, 0, 0, 0, 0);
    call(t, SCHEDULE, 0, 0, 0, 0, 0);
    is("the first request", call(t, READ, 0, 200, 0, 0x1234, 0).result, 1);
    is("the second request", call(t, WRITE, 0, 201, 0, 0x5678, 0).result, 2);
    IS(t->running, 2);
    in_place(t, 2, KHILZURGEE_PLACE_RUNNING, 0);
    in_place(t, 5, KHILZURGEE_PLACE_READY, 0);
    call(t, TIMER, 0, 0, 0, 0, 0);
    call(t, CHECK, 0, 2, 0, 0, 0);

    IS(t->clock, 4);
    IS(t->on, 0x8000000000000000u);
    IS(t->signalled, 0x8000000000000001u);
    IS(t->running, 5);
    IS(t->channel, 1);
    IS(t->free_tasks, 0x1ffff80u);
    IS(t->free_requests, 0x1fff8u);
    IS(t->pools[2], 0xfffffffffffffffu);
    in_place(t, 1, KHILZURGEE_PLACE_LINK, 1);
    IS(t->tasks[1].program, 1);
    in_place(t, 2, KHILZURGEE_PLACE_CHECK, 4);
    IS(t->tasks[2].parent, 1);
    IS(t->tasks[2].core, 1);
    IS(t->tasks[2].request, 2);
    in_place(t, 3, KHILZURGEE_PLACE_EVENT, 2);
    IS(t->tasks[3].count, 2);
    IS(t->tasks[3].events, 9);
    in_place(t, 4, KHILZURGEE_PLACE_TIME, 2);
    IS(t->tasks[4].time, 0x01020304);
    in_place(t, 5, KHILZURGEE_PLACE_RUNNING, 0);
    IS(t->tasks[5].start, 30);
    in_place(t, 6, KHILZURGEE_PLACE_CORE, 3);
    in_place(t, 7, KHILZURGEE_PLACE_FREE, 0);
    IS(t->requests[1].place, 2);
    IS(t->requests[1].owner, 2);
    IS(t->requests[1].device, 200);
    IS(t->requests[1].command, READ);
    IS(t->requests[1].bytes, 0x1234);
    IS(t->requests[2].place, 1);
    IS(t->requests[2].command, WRITE);
    IS(t->requests[2].bytes, 0x5678);
}

/* Two more event waiters stand behind task 3: the pointers of the queue. */
static void after_waiters(struct khilzurgee_tables *t)
{
    is("a started task", call(t, START, 0, 1, 0, 0, 0).result, 7);
    call(t, SCHEDULE, 1, 1, 1, 0, 1);
    call(t, SCHEDULE, 1, 1, 1, 0, 8);
    IS(t->threads.first[0], 3);
    IS(t->threads.last[0], 9);
    IS(t->threads.fwd[3], 8);
    IS(t->threads.fwd[8], 9);
    IS(t->threads.back[9], 8);
    IS(t->threads.back[8], 3);
    IS(t->threads.first[3], 7);
    IS(t->threads.first[7], 4);
    IS(t->threads.first[8], KHILZURGEE_TASKS + 2);
    IS(t->threads.last[5], 6);
}

/* Task 10 goes from the time queue to the core queue, behind 6, and its reading
   is the new clock. Task 5 waits as ending for a read; 2 has its write, and waits
   no more. When 5 has finished, 6 gets its core, and 10 waits as before. */
static void after_moves(struct khilzurgee_tables *t)
{
    is("a task by time", call(t, SCHEDULE, 2, 0, 0, 5, 0).result, 10);
    in_place(t, 10, KHILZURGEE_PLACE_TIME, 4);
    call(t, TIMER, 0, 0, 0, 0, 0);
    IS(t->clock, 5);
    in_place(t, 10, KHILZURGEE_PLACE_CORE, 5);
    in_place(t, 6, KHILZURGEE_PLACE_CORE, 3);
    is("the third request", call(t, READ, 0, 202, 0, 1, 0).result, 3);
    call(t, END, 0, 0, 0, 0, 0);
    in_place(t, 5, KHILZURGEE_PLACE_ENDING, 5);
    in_place(t, 7, KHILZURGEE_PLACE_RUNNING, 0);
    call(t, IO_DONE, 0, 0, 0, 0, 0);
    in_place(t, 2, KHILZURGEE_PLACE_CHECK, 4);
    call(t, IO_DONE, 0, 0, 0, 0, 0);
    in_place(t, 2, KHILZURGEE_PLACE_READY, 0);
    call(t, TIMER, 0, 0, 0, 0, 0);
    call(t, IO_DONE, 0, 0, 0, 0, 0);
    in_place(t, 5, KHILZURGEE_PLACE_FREE, 0);
    in_place(t, 6, KHILZURGEE_PLACE_READY, 0);
    in_place(t, 10, KHILZURGEE_PLACE_CORE, 5);
    IS(t->clock - t->tasks[10].since, 1);
}

/* A block's reading may be at most the clock, and is 0 where it does not wait. */
static void with_reading(const struct khilzurgee_tables *good, unsigned block, uint32_t since, uint8_t refusal)
{
    static const uint8_t timer[KHILZURGEE_CALL_LENGTH] = {TIMER};
    char what[60];
    struct khilzurgee_tables t = *good;
    t.tasks[block].since = since;
    snprintf(what, sizeof what, "the refusal with the reading %lu in block %u", (unsigned long)since, block);
    is(what, khilzurgee_advance(&t, timer, sizeof timer).refusal, refusal);
}

static void readings(const struct khilzurgee_tables *good)
{
    with_reading(good, 10, 6, 0);
    with_reading(good, 10, 7, KHILZURGEE_TABLES_BROKEN);
    with_reading(good, 10, UINT32_MAX, KHILZURGEE_TABLES_BROKEN);
    with_reading(good, 1, 0, 0);
    with_reading(good, 7, 1, KHILZURGEE_TABLES_BROKEN); /* it runs */
    with_reading(good, 2, 1, KHILZURGEE_TABLES_BROKEN); /* it is ready */
    with_reading(good, 5, 1, KHILZURGEE_TABLES_BROKEN); /* it is free */
    with_reading(good, 0, 1, KHILZURGEE_TABLES_BROKEN); /* it is no block */
}

/* 'holes' is 0 or 1, and no call changes it. */
static void with_holes(const struct khilzurgee_tables *good, uint64_t holes, uint8_t refusal)
{
    static const uint8_t timer[KHILZURGEE_CALL_LENGTH] = {TIMER};
    char what[60];
    struct khilzurgee_tables t = *good;
    t.holes = holes;
    snprintf(what, sizeof what, "the refusal with holes %llu", (unsigned long long)holes);
    is(what, khilzurgee_advance(&t, timer, sizeof timer).refusal, refusal);
    IS(t.holes, holes);
}

static void rules_of_holes(const struct khilzurgee_tables *good)
{
    with_holes(good, KHILZURGEE_LOWEST_START, 0);
    with_holes(good, KHILZURGEE_SMALLEST_HOLE, 0);
    with_holes(good, 2, KHILZURGEE_TABLES_BROKEN);
    with_holes(good, 0x100, KHILZURGEE_TABLES_BROKEN);
    with_holes(good, 0x100000001, KHILZURGEE_TABLES_BROKEN);
    with_holes(good, UINT64_MAX, KHILZURGEE_TABLES_BROKEN);
}

/* Tasks 1 to 4 have units 0-7, 8-11, 12-15 and 16-63. 1 ends; 2 waits for an
   event and keeps its core; 3 ends. So there are holes of 8 at 0 and of 4 at 12,
   and 4 schedules a task of 4 units and one of 8: blocks 1 and 3. */
static void chop(struct khilzurgee_tables *t)
{
    static const uint8_t modules[] = {0, 1, 1, 2};
    call(t, TIMER, 0, 0, 0, 0, 0);
    for (unsigned i = 0; i < sizeof modules; i++) {
        is("a started task", call(t, START, 0, modules[i], 0, 0, 0).result, i + 1);
    }
    call(t, END, 0, 0, 0, 0, 0);
    call(t, WAIT, 1, 0, 1, 0, 1);
    call(t, END, 0, 0, 0, 0, 0);
    IS(t->pools[2], 0xffffffffffff0f00u);
    is("the task of 4 units", call(t, SCHEDULE, 0, 1, 0, 0, 0).result, 1);
    is("the task of 8 units", call(t, SCHEDULE, 0, 0, 0, 0, 0).result, 3);
    in_place(t, 1, KHILZURGEE_PLACE_READY, 0);
}

/* By the smallest hole the task of 4 units leaves the hole of 8 whole; by the
   lowest start it does not, and the task of 8 waits. */
static void grants(void)
{
    struct khilzurgee_tables t;
    uint8_t image[KHILZURGEE_IMAGE_LENGTH];
    make_image(image, chopped, sizeof chopped);
    is("the modules of the load", khilzurgee_load(&t, image, sizeof image).result, 3);
    chop(&t);
    IS(t.tasks[1].start, 12);
    IS(t.tasks[3].start, 0);
    in_place(&t, 3, KHILZURGEE_PLACE_READY, 0);
    IS(t.pools[2], UINT64_MAX);
    IS(t.holes, KHILZURGEE_SMALLEST_HOLE);
    is("the modules of the old load", khilzurgee_load_lowest(&t, image, sizeof image).result, 3);
    chop(&t);
    IS(t.tasks[1].start, 0);
    in_place(&t, 3, KHILZURGEE_PLACE_CORE, 1);
    IS(t.pools[2], 0xffffffffffff0f0fu);
    IS(t.holes, KHILZURGEE_LOWEST_START);
}

/* The old load, which leaves the same tables but for 'holes', and refuses the
   same. */
static void old_load(const struct khilzurgee_tables *loaded, const uint8_t *image)
{
    static const struct khilzurgee_tables zero;
    struct khilzurgee_tables t;
    struct khilzurgee_line line = khilzurgee_load_lowest(&t, image, KHILZURGEE_IMAGE_LENGTH);
    is("the refusal of the old load", line.refusal, 0);
    is("the result of the old load", line.result, 2);
    IS(t.holes, KHILZURGEE_LOWEST_START);
    t.holes = KHILZURGEE_SMALLEST_HOLE;
    is("whether the old load leaves another byte", memcmp(&t, loaded, sizeof t) != 0, 0);
    line = khilzurgee_load_lowest(&t, image, KHILZURGEE_IMAGE_LENGTH - 1);
    is("the refusal of an old load of 511 bytes", line.refusal, KHILZURGEE_BAD_LENGTH);
    is("whether a refused old load leaves a byte", memcmp(&t, &zero, sizeof t) != 0, 0);
}

/* Tables may hold anything: those that break a rule are answered by 9, and are
   left as they were. */
static void broken(const struct khilzurgee_tables *good)
{
    static const uint8_t timer[KHILZURGEE_CALL_LENGTH] = {TIMER};
    struct khilzurgee_tables t = *good;
    t.running = 3;
    struct khilzurgee_line line = khilzurgee_advance(&t, timer, sizeof timer);
    is("the refusal on broken tables", line.refusal, 9);
    is("the running task on broken tables", line.running, 0);
    IS(t.running, 3);
    IS(t.clock, good->clock);
    t = *good;
    t.on |= 8;
    is("the refusal where an event is on that was never signalled", khilzurgee_advance(&t, timer, sizeof timer).refusal, 9);
    t = *good;
    t.signalled |= 2;
    is("the refusal where an undefined event is signalled", khilzurgee_advance(&t, timer, sizeof timer).refusal, 9);
    memset(&t, 0xff, sizeof t);
    is("the refusal on tables of ones", khilzurgee_advance(&t, timer, sizeof timer).refusal, 9);
    is("the refusal of a load of no bytes", khilzurgee_load(&t, timer, 0).refusal, KHILZURGEE_BAD_LENGTH);
    IS(t.threads.last[8], 0);
    IS(t.holes, 0);
    is("the refusal on all-zero tables", khilzurgee_advance(&t, timer, sizeof timer).refusal, 9);
}

int main(void)
{
    static struct khilzurgee_tables tables;
    uint8_t image[KHILZURGEE_IMAGE_LENGTH];
    make_image(image, fields, sizeof fields);
    is("the image check", khilzurgee_image_check(image, sizeof image), KHILZURGEE_ACCEPTED);
    is("the block check of 511 bytes", khilzurgee_block_check(image, sizeof image - 1), 0);
    struct khilzurgee_line line = khilzurgee_load(&tables, image, sizeof image);
    is("the refusal of the load", line.refusal, 0);
    is("the result of the load", line.result, 2);
    after_load(&tables);
    old_load(&tables, image);
    after_calls(&tables);
    after_waiters(&tables);
    after_moves(&tables);
    readings(&tables);
    rules_of_holes(&tables);
    grants();
    broken(&tables);
    if (!wrong) {
        printf("every field of the tables is where the header has it\n");
    }
    return wrong;
}
