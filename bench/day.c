/* Replays a working day of a busy station through the proved step and through
   the second program, the same calls in one run, and compares every answer.

   usage: day TIMERS                      one run each of 1, 2, 4 and 8 eighths
                                          of so many timer interrupts
          day TIMERS none|PLAYER..        only these players, for a counter;
                                          prints how many calls the last made */
#define _POSIX_C_SOURCE 199309L
#include <stdio.h>
#include <stdlib.h>
#include <string.h>
#include <time.h>

#include "khilzurgee.h"
#include "rules_switch.h"
#include "working.h"

enum {
    CHUNK = 4096,   /* calls that are made, and then played by each in turn */
    REPEATED = 512  /* calls that the two last players make for a chunk */
};

static uint8_t calls[CHUNK][CALL_LENGTH];
static struct khilzurgee_line lines[CHUNK];
static struct answer answers[CHUNK], checked_answers[CHUNK];
static struct khilzurgee_tables tables;
static struct executive second, checked;

static void fail(const char *why)
{
    fprintf(stderr, "bench: %s\n", why);
    exit(1);
}

/* ---- the players: each makes the calls of a chunk, and says how many. The
   functions that they call lie in files of their own, so none can be left out. */

static size_t play_proved(size_t count)
{
    for (size_t i = 0; i < count; i++) {
        lines[i] = khilzurgee_advance(&tables, calls[i], CALL_LENGTH);
    }
    return count;
}

static size_t play_second(size_t count)
{
    for (size_t i = 0; i < count; i++) {
        answers[i] = executive_step(&second, calls[i], CALL_LENGTH);
    }
    return count;
}

/* The second program with its own table check before each call. */
static size_t play_checked(size_t count)
{
    rules_are_checked = 1;
    for (size_t i = 0; i < count; i++) {
        checked_answers[i] = executive_step(&checked, calls[i], CALL_LENGTH);
    }
    rules_are_checked = 0;
    return count;
}

static size_t play_refused(struct khilzurgee_tables *on, int refusal)
{
    static const uint8_t unknown[CALL_LENGTH] = {0};
    for (int i = 0; i < REPEATED; i++) {
        if (khilzurgee_advance(on, unknown, CALL_LENGTH).refusal != refusal) {
            fail("a call was not refused as it should be");
        }
    }
    return REPEATED;
}

/* A code that is not known is refused by 24 as soon as the table check is
   done: the check, and the copying of tables. */
static size_t play_unknown(size_t count)
{
    (void)count;
    return play_refused(&tables, 24);
}

/* Tables whose first queue has a last block and no first one are refused by 9 at
   once: the copying of tables in and out, and no check. */
static size_t play_broken(size_t count)
{
    (void)count;
    struct khilzurgee_tables broken = tables;
    broken.threads.first[0] = 0;
    broken.threads.last[0] = 1;
    return play_refused(&broken, 9);
}

enum { PROVED, SECOND, CHECKED, UNKNOWN, BROKEN, PLAYERS };

static const struct {
    const char *name;
    size_t (*play)(size_t count);
} players[PLAYERS] = {
    {"proved", play_proved}, {"second", play_second}, {"checked", play_checked}, {"unknown", play_unknown}, {"broken", play_broken}
};

/* ---- a run */

struct run {
    unsigned long timers, calls, refused, tasks;
    unsigned long made[PLAYERS];
    double seconds[PLAYERS];
};

/* Makes the next calls of the day, up to a chunk or the last timer interrupt. */
static size_t make_chunk(struct working *day, struct run *run, unsigned long timers)
{
    size_t count = 0;
    while (count < CHUNK && run->timers < timers) {
        working_next(day, calls[count]);
        run->timers += calls[count][0] == TIMER;
        run->tasks += working_tasks(day);
        count++;
    }
    run->calls += count;
    return count;
}

static void play(struct run *run, int player, size_t count)
{
    struct timespec before, after;
    clock_gettime(CLOCK_PROCESS_CPUTIME_ID, &before);
    run->made[player] += players[player].play(count);
    clock_gettime(CLOCK_PROCESS_CPUTIME_ID, &after);
    run->seconds[player] += (double)(after.tv_sec - before.tv_sec) + (double)(after.tv_nsec - before.tv_nsec) / 1e9;
}

/* Whether both say of each block since when its task waits. */
static int same_readings(void)
{
    int same = 1;
    for (int block = 1; block <= TASKS; block++) {
        same = same && tables.tasks[block].since == second.task[block].since;
    }
    return same;
}

/* Every answer of the two, and what can be seen of both tables. */
static void compare(struct run *run, size_t count)
{
    for (size_t i = 0; i < count; i++) {
        const struct khilzurgee_line *line = &lines[i];
        const struct answer *answer = &answers[i];
        if (line->refusal != answer->refusal || line->result != answer->result || line->running != answer->running) {
            fail("the two programs answer a call differently");
        }
        if (memcmp(answer, &checked_answers[i], sizeof *answer) != 0) {
            fail("the second program answers differently with its check");
        }
        run->refused += line->refusal != 0;
    }
    if (tables.clock != second.clock || tables.on != second.on || tables.signalled != second.signalled || tables.channel != second.channel
        || !same_readings()) {
        fail("the two programs have different tables");
    }
}

static void load(void)
{
    uint8_t image[IMAGE_LENGTH];
    working_image(image);
    if (khilzurgee_load(&tables, image, IMAGE_LENGTH).refusal != 0) {
        fail("the image was refused");
    }
    executive_load(&second, image, IMAGE_LENGTH);
    executive_load(&checked, image, IMAGE_LENGTH);
}

/* A day of so many timer interrupts from a load on. The order of the players
   turns round from chunk to chunk. */
static struct run run_day(unsigned long timers)
{
    struct run run = {0};
    struct working day;
    working_begin(&day);
    load();
    for (unsigned long chunk = 0; run.timers < timers; chunk++) {
        size_t count = make_chunk(&day, &run, timers);
        for (int i = 0; i < PLAYERS; i++) {
            play(&run, chunk % 2 == 0 ? i : PLAYERS - 1 - i, count);
        }
        compare(&run, count);
    }
    return run;
}

static double nanoseconds(const struct run *run, int player)
{
    return run->seconds[player] * 1e9 / (double)run->made[player];
}

static void print_parts(const struct run *run)
{
    double proved = nanoseconds(run, PROVED), plain = nanoseconds(run, SECOND), with_check = nanoseconds(run, CHECKED);
    double refused = nanoseconds(run, UNKNOWN), copied = nanoseconds(run, BROKEN);
    printf("the longest run: %lu calls, %.1f%% refused, %.1f of 24 task blocks in use on average; all answers are equal\n", run->calls,
           100.0 * (double)run->refused / (double)run->calls, (double)run->tasks / (double)run->calls);
    printf("proved step with its table check: %.0f calls a second, %.0f ns a call\n", 1e9 / proved, proved);
    printf("second program without a check: %.0f calls a second, %.0f ns a call\n", 1e9 / plain, plain);
    printf("ratio: %.1f; the aim is 3 at most\n", proved / plain);
    printf("second program with its own table check: %.0f ns a call; ratio of the proved step to it: %.2f\n", with_check, proved / with_check);
    printf("a call of an unknown code, so the table check with the copying of tables: %.0f ns, %.0f%% of a mean call\n", refused, 100 * refused / proved);
    printf("a call that the check refuses at its first queue, so the copying alone: %.0f ns, %.0f%%\n", copied, 100 * copied / proved);
    printf("the table check alone, the difference: %.0f ns, %.0f%%, %.1f times the second program's mean call\n", refused - copied,
           100 * (refused - copied) / proved, (refused - copied) / plain);
}

static void time_all(unsigned long timers)
{
    struct run run;
    printf("%5s %9s %9s %16s %16s %6s\n", "times", "timers", "calls", "proved ns a call", "second ns a call", "ratio");
    for (unsigned long times = 1; times <= 8; times *= 2) {
        run = run_day(timers * times / 8);
        double proved = nanoseconds(&run, PROVED), plain = nanoseconds(&run, SECOND);
        printf("%5lu %9lu %9lu %16.0f %16.0f %6.1f\n", times, run.timers, run.calls, proved, plain, proved / plain);
        fflush(stdout);
    }
    print_parts(&run);
}

static int player_named(const char *name)
{
    int player = 0;
    while (player < PLAYERS && strcmp(players[player].name, name) != 0) {
        player++;
    }
    return player;
}

/* Only the players that are named, in that order; a name of none plays
   nothing. Prints the calls that the last of them made. */
static void play_some(unsigned long timers, int names, char **name)
{
    struct run run = {0};
    struct working day;
    size_t made = 0;
    working_begin(&day);
    load();
    while (run.timers < timers) {
        size_t count = make_chunk(&day, &run, timers);
        for (int i = 0; i < names; i++) {
            int player = player_named(name[i]);
            size_t played = player < PLAYERS ? players[player].play(count) : 0;
            made += i == names - 1 ? played : 0;
        }
    }
    printf("%zu\n", made);
}

int main(int argc, char **argv)
{
    unsigned long timers = argc > 1 ? strtoul(argv[1], NULL, 10) : 0;
    if (timers < 8) {
        fprintf(stderr, "usage: day TIMERS [none|PLAYER..]\n");
        return 2;
    }
    if (argc > 2) {
        play_some(timers, argc - 2, argv + 2);
    } else {
        time_all(timers);
    }
    return 0;
}
