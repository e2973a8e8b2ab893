/* Tests what no session can reach: the check's two values, writing, refusal 9,
   the clock's end and the readings of waits there, what a short SIGNAL and a
   second load leave of the signalled events, and the rule of the grants in the
   tables. Prints what fails; exit status 1 if anything does. */
#include "executive.h"

#include <stdio.h>
#include <string.h>

/* Counts a failure and says which. */
static void expect(int *failed, int holds, const char *words)
{
    if (!holds) {
        (*failed)++;
        printf("beyond: FAILED: %s\n", words);
    }
}

/* A good directory: two modules, N 2, event 0. */
static struct directory good_directory(void)
{
    struct directory directory;
    memset(&directory, 0, sizeof directory);
    directory.modules = 2;
    directory.every = 2;
    directory.events = 1;
    directory.module[0].level = 1;
    directory.module[1].level = LEVELS;
    directory.module[1].units = UNITS;
    directory.module[1].flags = 1;
    directory.module[1].entry = UINT32_MAX;
    return directory;
}

/* "With all 510 bytes zero it is 1; with only byte 509 at 255 it is
   64,530." */
static void check_values(int *failed)
{
    uint8_t bytes[IMAGE_LENGTH] = {0};
    expect(failed, image_check_value(bytes) == 1, "510 zero bytes: 1");
    bytes[AT_CHECK - 1] = 255;
    expect(failed, image_check_value(bytes) == 64530, "byte 509 at 255: 64,530");
}

/* One refused write: its number, result 0, "and then writes nothing". */
static void expect_write(int *failed, const struct directory *directory,
                         size_t length, int refusal, const char *words)
{
    uint8_t bytes[IMAGE_LENGTH + 1];
    uint8_t before[IMAGE_LENGTH + 1];
    memset(bytes, 170, sizeof bytes);
    memcpy(before, bytes, sizeof bytes);
    struct write_answer answer = image_write(directory, bytes, length);
    expect(failed, answer.refusal == refusal && answer.result == 0
                       && memcmp(bytes, before, sizeof bytes) == 0, words);
}

/* "It refuses by 1, 4, 5, 6, 7 in that order": the directory starts with all
   of them wrong, and they are mended one by one. */
static void write_refusals(int *failed)
{
    struct directory directory = good_directory();
    directory.modules = 0;
    directory.every = 0;
    directory.module[0].level = 0;
    directory.module[2].entry = 1;
    expect_write(failed, &directory, IMAGE_LENGTH - 1, 1, "write 511: 1");
    expect_write(failed, &directory, IMAGE_LENGTH + 1, 1, "write 513: 1");
    expect_write(failed, &directory, IMAGE_LENGTH, 4, "write M 0: 4");
    directory.modules = MODULES + 1;
    expect_write(failed, &directory, IMAGE_LENGTH, 4, "write M 33: 4");
    directory.modules = 2;
    expect_write(failed, &directory, IMAGE_LENGTH, 5, "write N 0: 5");
    directory.every = 2;
    expect_write(failed, &directory, IMAGE_LENGTH, 6, "write level 0: 6");
    directory.module[0].level = 1;
    expect_write(failed, &directory, IMAGE_LENGTH, 7, "write unused entry: 7");
}

/* "a directory written and loaded comes back equal" */
static void write_and_load(int *failed)
{
    struct directory directory = good_directory();
    struct directory loaded;
    uint8_t bytes[IMAGE_LENGTH];
    uint8_t again[IMAGE_LENGTH];
    struct write_answer answer = image_write(&directory, bytes, IMAGE_LENGTH);
    expect(failed, answer.refusal == 0 && answer.result == 1, "write: 0 1");
    expect(failed, image_load(&loaded, bytes, IMAGE_LENGTH) == 0, "load: 0");
    expect(failed, image_write(&loaded, again, IMAGE_LENGTH).result == 1
                       && memcmp(bytes, again, IMAGE_LENGTH) == 0
                       && loaded.module[1].entry == UINT32_MAX
                       && loaded.module[1].flags == 1, "the same comes back");
}

/* One call; is the answer this one? */
static int answers(struct executive *executive, struct call call, int refusal,
                   int result, int running)
{
    uint8_t bytes[CALL_LENGTH];
    call_put(&call, bytes);
    struct answer answer = executive_step(executive, bytes, CALL_LENGTH);
    return answer.refusal == refusal && answer.result == result
        && answer.running == running;
}

/* "all-zero tables, on which every call answers 9", a short one too */
static void refusal_9(int *failed)
{
    struct executive executive;
    struct executive zero;
    uint8_t bytes[IMAGE_LENGTH] = {0};
    memset(&zero, 0, sizeof zero);
    expect(failed, executive_load(&executive, bytes, IMAGE_LENGTH).refusal == 2,
           "512 zero bytes: 2");
    for (int code = 0; code < 256; code++) {
        struct call call = {(uint8_t)code, 0, 0, 0, 0, 0};
        expect(failed, answers(&executive, call, 9, 0, 0), "zero tables: 9");
    }
    expect(failed, executive_step(&executive, bytes, 3).refusal == 9,
           "zero tables, short call: 9");
    expect(failed, memcmp(&executive, &zero, sizeof zero) == 0,
           "zero tables stay zero");
    zero.running = 1;
    struct call start = {OPERATOR_START, 0, 0, 0, 0, 0};
    expect(failed, answers(&zero, start, 9, 0, 0), "9 names no running task");
}

/* P12 "timer at the clock's end: 21", and "with N 2 a task due at
   4,294,967,295 is never woken". */
static void clock_end(int *failed)
{
    struct executive executive;
    struct directory directory = good_directory();
    uint8_t bytes[IMAGE_LENGTH];
    struct call start = {OPERATOR_START, 0, 0, 0, 0, 0};
    struct call timer = {TIMER, 0, 0, 0, 0, 0};
    struct call in_two = {WAIT, AFTER_INTERVAL, 0, 0, 2, 0};
    struct call in_one = {WAIT, AFTER_INTERVAL, 0, 0, 1, 0};
    struct call now = {WAIT, AFTER_INTERVAL, 0, 0, 0, 0};
    image_put(&directory, bytes);
    executive_load(&executive, bytes, IMAGE_LENGTH);
    executive.clock = CLOCK_END - 1;
    expect(failed, answers(&executive, start, 0, 1, 1), "start");
    expect(failed, answers(&executive, in_two, 15, 0, 1), "past the end: 15");
    expect(failed, answers(&executive, in_one, 0, 1, 0), "at the end: waits");
    expect(failed, answers(&executive, timer, 0, 1, 0), "never woken");
    expect(failed, answers(&executive, timer, 21, 0, 0), "timer: 21");
    expect(failed, executive.clock == CLOCK_END, "21 changes no clock");
    expect(failed, answers(&executive, start, 0, 2, 2), "start at the end");
    expect(failed, answers(&executive, in_one, 15, 0, 2), "at the end: 15");
    expect(failed, answers(&executive, now, 0, 1, 2), "at the end: holds");
    expect(failed, answers(&executive, timer, 21, 0, 2), "timer again: 21");
}

/* Document 02, E1: 3 until an event is "signalled on or off since the load". A
   short SIGNAL, behind which a session ends, isn't one; a second load forgets
   all. 9 where an event that is on has not been signalled, or a signalled one
   isn't defined. */
static void signalled_events(int *failed)
{
    struct executive executive;
    struct directory directory = good_directory();
    uint8_t image[IMAGE_LENGTH];
    uint8_t bytes[CALL_LENGTH];
    struct call start = {OPERATOR_START, 0, 0, 0, 0, 0};
    struct call signal = {SIGNAL, 0, 0, 1, 0, 0};
    struct call test = {TEST_EVENT, 0, 0, 0, 0, 0};
    image_put(&directory, image);
    call_put(&signal, bytes);
    executive_load(&executive, image, IMAGE_LENGTH);
    expect(failed, answers(&executive, start, 0, 1, 1), "start");
    expect(failed,
           executive_step(&executive, bytes, CALL_LENGTH - 1).refusal == 10,
           "a short SIGNAL: 10");
    expect(failed, answers(&executive, test, 0, 3, 1), "not signalled by it: 3");
    executive.on = 1;
    expect(failed, answers(&executive, test, 9, 0, 0), "on, not signalled: 9");
    executive.signalled = 1;
    expect(failed, answers(&executive, test, 0, 2, 1), "on and signalled: 2");
    executive.on = 0;
    expect(failed, answers(&executive, test, 0, 1, 1), "off and signalled: 1");
    executive.signalled = 3;
    expect(failed, answers(&executive, test, 9, 0, 0), "1 isn't defined: 9");
    executive_load(&executive, image, IMAGE_LENGTH);
    expect(failed, answers(&executive, start, 0, 1, 1), "start again");
    expect(failed, answers(&executive, test, 0, 3, 1), "loaded again: 3");
}

/* Document 02, E6: "the clock reading at which it last entered any waiting
   queue", up to the clock's end. 9 where it is past the clock. */
static void late_readings(int *failed)
{
    struct executive executive;
    struct directory directory = good_directory();
    uint8_t bytes[IMAGE_LENGTH];
    struct call start = {OPERATOR_START, 0, 0, 0, 0, 0};
    struct call timer = {TIMER, 0, 0, 0, 0, 0};
    struct call wait = {WAIT, ON_EVENTS, 0, 1, 0, 1};
    image_put(&directory, bytes);
    executive_load(&executive, bytes, IMAGE_LENGTH);
    executive.clock = CLOCK_END - 1;
    expect(failed, answers(&executive, start, 0, 1, 1), "start");
    expect(failed, answers(&executive, wait, 0, 1, 0), "1 waits");
    expect(failed, answers(&executive, timer, 0, 1, 0), "timer");
    expect(failed, answers(&executive, start, 0, 2, 2), "start at the end");
    expect(failed, answers(&executive, wait, 0, 1, 0), "2 waits");
    expect(failed, answers(&executive, timer, 21, 0, 0), "timer: 21");
    expect(failed, executive.task[1].since == CLOCK_END - 1
                       && executive.task[2].since == CLOCK_END, "since then");
    executive.clock = CLOCK_END - 1;
    expect(failed, answers(&executive, start, 9, 0, 0), "past the clock: 9");
    executive.task[2].since = CLOCK_END - 1;
    expect(failed, answers(&executive, start, 0, 3, 3), "the clock itself");
    executive.task[2].since = 0;
    expect(failed, answers(&executive, start, 0, 4, 3), "since clock 0");
}

/* Document 02, E6: "0 while free, ready or running". 9 where it isn't. Blocks 1
   and 2 run and are ready; the last one is free, and so is block 0, which is
   none. */
static void idle_readings(int *failed)
{
    static const int blocks[] = {1, 2, TASKS, 0};
    struct executive executive;
    struct directory directory = good_directory();
    uint8_t bytes[IMAGE_LENGTH];
    struct call start = {OPERATOR_START, 0, 0, 0, 0, 0};
    struct call freemain = {FREEMAIN, 0, 0, 0, 0, 0};
    image_put(&directory, bytes);
    executive_load(&executive, bytes, IMAGE_LENGTH);
    executive.clock = 1;
    expect(failed, answers(&executive, start, 0, 1, 1), "start");
    expect(failed, answers(&executive, start, 0, 2, 1), "start again");
    for (size_t i = 0; i < sizeof blocks / sizeof blocks[0]; i++) {
        executive.task[blocks[i]].since = 1;
        expect(failed, answers(&executive, freemain, 9, 0, 0), "no wait: 9");
        executive.task[blocks[i]].since = 0;
        expect(failed, answers(&executive, freemain, 0, 1, 1), "no reading");
    }
}

/* Document 02, E8: each load sets its rule, a refused one leaves "all-zero
   tables" all the same, and no call changes it. 9 where it is neither. */
static void rule_of_grants(int *failed)
{
    struct executive executive;
    struct executive zero;
    struct directory directory = good_directory();
    uint8_t bytes[IMAGE_LENGTH];
    struct call start = {OPERATOR_START, 0, 1, 0, 0, 0};
    struct call end = {END, 0, 0, 0, 0, 0};
    memset(&zero, 0, sizeof zero);
    image_put(&directory, bytes);
    expect(failed, executive_load(&executive, bytes, 511).refusal == 1
                       && memcmp(&executive, &zero, sizeof zero) == 0,
           "a refused load: zero");
    expect(failed, executive_load_lowest(&executive, bytes, 511).refusal == 1
                       && memcmp(&executive, &zero, sizeof zero) == 0,
           "a refused load of the old program: zero");
    executive_load_lowest(&executive, bytes, IMAGE_LENGTH);
    expect(failed, executive.holes == LOWEST_START, "the old program's rule");
    expect(failed, answers(&executive, start, 0, 1, 1), "granted by it");
    expect(failed, executive.holes == LOWEST_START, "it stays");
    executive_load(&executive, bytes, IMAGE_LENGTH);
    expect(failed, executive.holes == SMALLEST_HOLE, "E8's rule");
    expect(failed, answers(&executive, start, 0, 1, 1), "granted by that");
    expect(failed, executive.holes == SMALLEST_HOLE, "that stays");
    executive.holes = SMALLEST_HOLE + 1;
    expect(failed, answers(&executive, end, 9, 0, 0), "no such rule: 9");
    executive.holes = UINT64_MAX;
    expect(failed, answers(&executive, end, 9, 0, 0), "the highest value: 9");
    executive.holes = LOWEST_START;
    expect(failed, answers(&executive, end, 0, 1, 0), "either rule");
}

/* All of them. */
int main(void)
{
    int failed = 0;
    check_values(&failed);
    write_refusals(&failed);
    write_and_load(&failed);
    refusal_9(&failed);
    clock_end(&failed);
    signalled_events(&failed);
    late_readings(&failed);
    idle_readings(&failed);
    rule_of_grants(&failed);
    printf("beyond: %d failed\n", failed);
    return failed != 0;
}
