/* How often and how long a task waits for core, by the lowest start and by the
   smallest hole (document 02, E8).

   Long and short tasks of one level: a level has a pool of its own. A list of
   arrivals is made beforehand, and played twice from a load on, once by each
   rule. A task is started as it arrives. When it first runs it waits for a time,
   and keeps its core; when it runs again it ends. Nothing else takes time, so
   who waits for core, and how long, is for the grants alone to say. It is read
   off the tables after each call: from the place of each task, and 'since'.

   Then come working days of bench/day. The tables steer which calls such a day
   has. So after the first grant that differs the two rules have two days of one
   make, and no longer the same calls.

   The second program makes each call too. Where it answers differently, or has
   a task in another place or another reading, the run fails.

   usage: waits PARTS CYCLES    so many parts of a day of each load, each of so
                                many cycles */
#include <stdio.h>
#include <stdlib.h>
#include <string.h>

#include "khilzurgee.h"
#include "working.h"

enum { SHORT, LONG, SIZES };
enum { LOWEST, SMALLEST, RULES };
enum { FEWER, AS_MANY, MORE, ORDERS };
enum {
    LONG_UNITS = 16, /* a task of so many units or more is a long one */
    FIRST_LONG = 5,  /* of the station's modules */
    CORE_QUEUES = 3, /* and the level: the number of its core queue */
    A_DAY = 4320000  /* cycles */
};

static const char *const size_names[SIZES] = {"short", "long"};
static const char *const rule_names[RULES] = {"lowest start", "smallest hole"};

static const struct directory station = {
    .modules = 8,
    .every = 1,
    .module = {{2, 2, 1, 0x1000}, {2, 3, 1, 0x1100}, {2, 4, 1, 0x1200}, {2, 6, 1, 0x1300}, {2, 8, 1, 0x1400},
               {2, 16, 0, 0x2000}, {2, 24, 0, 0x2400}, {2, 32, 0, 0x2800}}
};

/* A short task comes once in so many cycles, and a long one in so many. */
struct load {
    const char *name;
    unsigned gap[SIZES];
};

static const struct load loads[] = {{"light", {30, 750}}, {"busy", {20, 500}}, {"very busy", {15, 375}}};

/* The cycles for which a task holds its core: any of these, all alike. */
static const struct {
    unsigned least, most;
} holds[SIZES] = {{20, 100}, {120, 360}};

struct arrival {
    uint32_t cycle, hold;
    uint8_t module;
};

/* What is counted of the tasks of one size. 'pieces': those that began to wait
   though enough units were free and nobody stood before them, since these were
   free in pieces. */
struct count {
    unsigned long started, waited, pieces, cycles, longest;
};

/* What was last seen of a block: whether its task waits for core. */
struct seen {
    int waits, size;
    uint32_t since;
};

/* A part of a day, played by one rule. */
struct play {
    struct khilzurgee_tables tables;
    struct executive second;
    struct count count[SIZES];
    struct seen seen[TASKS + 1];
    unsigned in_use;                 /* task blocks */
    uint32_t hold[TASKS + 1];        /* of the task in each block; 0 once it ran */
    unsigned long late, cycles_late; /* starts put off for want of a block */
};

static void fail(const char *why)
{
    fprintf(stderr, "bench: %s\n", why);
    exit(1);
}

/* ---- what is read off the tables */

static int size_of(const struct khilzurgee_entry *module)
{
    return module->units >= LONG_UNITS ? LONG : SHORT;
}

static void begins(struct play *play, int block)
{
    const struct khilzurgee_tables *tables = &play->tables;
    const struct khilzurgee_entry *module = &tables->directory.entries[tables->tasks[block].program];
    struct seen *seen = &play->seen[block];
    int first = tables->threads.first[CORE_QUEUES + module->level] == block;
    seen->waits = 1;
    seen->size = size_of(module);
    seen->since = tables->tasks[block].since;
    play->count[seen->size].waited++;
    play->count[seen->size].pieces += first && count_ones(~tables->pools[module->level]) >= module->units;
}

static void ends(struct play *play, int block)
{
    struct seen *seen = &play->seen[block];
    struct count *count = &play->count[seen->size];
    unsigned long cycles = play->tables.clock - seen->since;
    seen->waits = 0;
    count->cycles += cycles;
    count->longest = cycles > count->longest ? cycles : count->longest;
}

/* Who has begun to wait for core in the last call, and who waits no more. Nobody
   does both in one call. */
static void watch(struct play *play, const struct executive *second)
{
    for (int block = 1; block <= TASKS; block++) {
        const struct khilzurgee_task *task = &play->tables.tasks[block];
        int waits = task->place == KHILZURGEE_PLACE_CORE;
        if (task->place != second->task[block].place || task->since != second->task[block].since) {
            fail("the two programs have a task in different places, or different readings");
        }
        if (waits && !play->seen[block].waits) {
            begins(play, block);
        } else if (!waits && play->seen[block].waits) {
            ends(play, block);
        }
    }
}

/* ---- loads and calls */

static void load(struct play *play, struct executive *second, const uint8_t *image, int rule)
{
    struct khilzurgee_line line;
    memset(play, 0, sizeof *play);
    if (rule == LOWEST) {
        line = khilzurgee_load_lowest(&play->tables, image, IMAGE_LENGTH);
        executive_load_lowest(second, image, IMAGE_LENGTH);
    } else {
        line = khilzurgee_load(&play->tables, image, IMAGE_LENGTH);
        executive_load(second, image, IMAGE_LENGTH);
    }
    if (line.refusal != 0) {
        fail("the image was refused");
    }
}

static struct khilzurgee_line make(struct play *play, const struct call *call)
{
    uint8_t bytes[CALL_LENGTH];
    call_put(call, bytes);
    struct khilzurgee_line line = khilzurgee_advance(&play->tables, bytes, CALL_LENGTH);
    struct answer answer = executive_step(&play->second, bytes, CALL_LENGTH);
    if (line.refusal != answer.refusal || line.result != answer.result || line.running != answer.running) {
        fail("the two programs answer a call differently");
    }
    if (line.refusal != 0 && line.refusal != KHILZURGEE_NO_TASK_BLOCK) {
        fail("a call was refused");
    }
    watch(play, &play->second);
    return line;
}

/* ---- one list of arrivals, by one rule */

/* Whoever is ready runs: the first time it waits, the second time it ends. */
static void run_all(struct play *play)
{
    while (play->tables.running != 0) {
        uint32_t *hold = &play->hold[play->tables.running];
        struct call call = {.code = END};
        if (*hold > 0) {
            call = (struct call){.code = WAIT, .kind = AFTER_INTERVAL, .amount = *hold};
            *hold = 0;
        } else {
            play->in_use--;
        }
        make(play, &call);
    }
}

/* Starts a task; 0 if there is no block for it now. */
static int start(struct play *play, const struct arrival *arrival)
{
    struct call call = {.code = OPERATOR_START, .number = arrival->module};
    struct khilzurgee_line line = make(play, &call);
    if (line.refusal == KHILZURGEE_NO_TASK_BLOCK) {
        return 0;
    }
    play->count[size_of(&play->tables.directory.entries[arrival->module])].started++;
    play->late += arrival->cycle < play->tables.clock;
    play->cycles_late += play->tables.clock - arrival->cycle;
    play->hold[line.result] = arrival->hold;
    play->in_use++;
    run_all(play);
    return 1;
}

/* All arrivals, until the last of them has ended. One for whom there is no block
   comes again in the next cycle, before those behind. */
static void play_list(struct play *play, const struct arrival *arrivals, size_t count, int rule)
{
    static const struct call timer = {.code = TIMER};
    uint8_t image[IMAGE_LENGTH];
    size_t next = 0;
    image_put(&station, image);
    load(play, &play->second, image, rule);
    while (next < count || play->in_use > 0) {
        make(play, &timer);
        run_all(play);
        while (next < count && arrivals[next].cycle <= play->tables.clock && start(play, &arrivals[next])) {
            next++;
        }
    }
}

/* ---- a working day, by one rule */

/* Whether a call starts a task that needs core. */
static int starts(const struct play *play, const struct call *call)
{
    return (call->code == LINK || call->code == SCHEDULE || call->code == OPERATOR_START) && play->tables.directory.entries[call->number].units > 0;
}

/* Who still waits as it stops has waited until then. */
static void play_working(struct play *play, uint64_t seed, unsigned long cycles, int rule)
{
    struct working day;
    uint8_t bytes[CALL_LENGTH], image[IMAGE_LENGTH];
    working_image(image);
    working_begin(&day);
    random_seed(&day.random, seed);
    load(play, &day.executive, image, rule);
    while (play->tables.clock < cycles) {
        struct call call;
        working_next(&day, bytes);
        call_get(&call, bytes);
        if (khilzurgee_advance(&play->tables, bytes, CALL_LENGTH).refusal == 0 && starts(play, &call)) {
            play->count[size_of(&play->tables.directory.entries[call.number])].started++;
        }
        watch(play, &day.executive);
    }
    for (int block = 1; block <= TASKS; block++) {
        if (play->seen[block].waits) {
            ends(play, block);
        }
    }
}

/* ---- all parts, by both rules */

/* In how many parts there were fewer by the smallest hole, as many, more. */
struct sums {
    struct count count[RULES][SIZES];
    unsigned waits[ORDERS], cycles[ORDERS];
    unsigned long late[RULES], cycles_late[RULES];
};

static int order(unsigned long a, unsigned long b)
{
    return a < b ? FEWER : a == b ? AS_MANY : MORE;
}

static void add(struct sums *sums, const struct play *plays)
{
    unsigned long waited[RULES] = {0}, cycles[RULES] = {0};
    for (int rule = 0; rule < RULES; rule++) {
        for (int size = 0; size < SIZES; size++) {
            const struct count *one = &plays[rule].count[size];
            struct count *all = &sums->count[rule][size];
            all->started += one->started;
            all->waited += one->waited;
            all->pieces += one->pieces;
            all->cycles += one->cycles;
            all->longest = one->longest > all->longest ? one->longest : all->longest;
            waited[rule] += one->waited;
            cycles[rule] += one->cycles;
        }
        sums->late[rule] += plays[rule].late;
        sums->cycles_late[rule] += plays[rule].cycles_late;
    }
    sums->waits[order(waited[SMALLEST], waited[LOWEST])]++;
    sums->cycles[order(cycles[SMALLEST], cycles[LOWEST])]++;
}

static void print(const struct sums *sums)
{
    printf("%-5s  %-13s %8s %7s %6s %9s %13s %6s %7s\n", "tasks", "rule", "started", "waited", "", "in pieces", "cycles waited", "mean", "longest");
    for (int size = 0; size < SIZES; size++) {
        for (int rule = 0; rule < RULES; rule++) {
            const struct count *count = &sums->count[rule][size];
            double started = (double)count->started, waited = (double)count->waited;
            printf("%-5s  %-13s %8lu %7lu %5.1f%% %9lu %13lu %6.1f %7lu\n", size_names[size], rule_names[rule], count->started, count->waited,
                   started > 0 ? 100 * waited / started : 0, count->pieces, count->cycles, waited > 0 ? (double)count->cycles / waited : 0,
                   count->longest);
        }
    }
    printf("by the smallest hole fewer waits in %u parts, as many in %u, more in %u; fewer cycles waited in %u, as many in %u, more in %u\n",
           sums->waits[FEWER], sums->waits[AS_MANY], sums->waits[MORE], sums->cycles[FEWER], sums->cycles[AS_MANY], sums->cycles[MORE]);
}

/* The arrivals of a part of a day, in order, and how many. */
static size_t make_list(struct arrival *arrivals, const struct load *load, uint64_t seed, unsigned long cycles)
{
    struct random random;
    size_t count = 0;
    random_seed(&random, seed);
    for (uint32_t cycle = 1; cycle <= cycles; cycle++) {
        for (int size = 0; size < SIZES; size++) {
            if (random_one_in(&random, load->gap[size])) {
                unsigned first = size == LONG ? FIRST_LONG : 0, behind = size == LONG ? station.modules : FIRST_LONG;
                arrivals[count].cycle = cycle;
                arrivals[count].module = (uint8_t)(first + random_below(&random, behind - first));
                arrivals[count].hold = holds[size].least + random_below(&random, holds[size].most - holds[size].least + 1);
                count++;
            }
        }
    }
    return count;
}

/* The units that the arrivals ask for, each for as long as it holds them. */
static double asked(const struct arrival *arrivals, size_t count)
{
    double units = 0;
    for (size_t i = 0; i < count; i++) {
        units += (double)arrivals[i].hold * station.module[arrivals[i].module].units;
    }
    return units;
}

static void try_load(const struct load *load, unsigned parts, unsigned long cycles)
{
    static struct play plays[RULES];
    struct arrival *arrivals = malloc(SIZES * cycles * sizeof *arrivals);
    struct sums sums = {0};
    double units = 0;
    if (arrivals == NULL) {
        fail("no memory");
    }
    for (unsigned part = 1; part <= parts; part++) {
        size_t count = make_list(arrivals, load, part, cycles);
        units += asked(arrivals, count);
        for (int rule = 0; rule < RULES; rule++) {
            play_list(&plays[rule], arrivals, count, rule);
        }
        add(&sums, plays);
    }
    free(arrivals);
    printf("\n%s: %.0f%% of the pool is asked for\n", load->name, 100 * units / ((double)UNITS * (double)parts * (double)cycles));
    print(&sums);
    printf("put off for want of a block: by the lowest start %lu starts, %lu cycles; by the smallest hole %lu, %lu\n", sums.late[LOWEST],
           sums.cycles_late[LOWEST], sums.late[SMALLEST], sums.cycles_late[SMALLEST]);
    fflush(stdout);
}

static void try_working(unsigned parts, unsigned long cycles)
{
    static struct play plays[RULES];
    struct sums sums = {0};
    for (unsigned part = 1; part <= parts; part++) {
        for (int rule = 0; rule < RULES; rule++) {
            play_working(&plays[rule], part, cycles, rule);
        }
        add(&sums, plays);
    }
    printf("\nthe working day of bench/day, each rule its own; three levels\n");
    print(&sums);
}

int main(int argc, char **argv)
{
    unsigned parts = argc == 3 ? (unsigned)strtoul(argv[1], NULL, 10) : 0;
    unsigned long cycles = argc == 3 ? strtoul(argv[2], NULL, 10) : 0;
    if (parts == 0 || cycles == 0 || cycles > A_DAY) {
        fprintf(stderr, "usage: waits PARTS CYCLES\n");
        return 2;
    }
    printf("%u parts of a day of each load, %lu cycles each: 1/%.0f of a day\n", parts, cycles, (double)A_DAY / (double)cycles);
    for (size_t i = 0; i < sizeof loads / sizeof loads[0]; i++) {
        try_load(&loads[i], parts, cycles);
    }
    try_working(parts, cycles);
    return 0;
}
