/* The search for the smallest hole and the search for the lowest start (document
   02, E8) on pools of one kind, for a counter of instructions: the search alone,
   or a whole operator start on tables whose pool is that one.

   usage: holes KIND search|start none|lowest|smallest
                           searches or starts once for each pool, with none not
                           at all
          holes kinds      compares what each finds with a plain loop over the
                           units; prints each KIND, how many pools it has, on how
                           many of them the rules take different starts, and what
                           it is */
#include <stdio.h>
#include <stdlib.h>
#include <string.h>

#include "khilzurgee.h"
#include "working.h"

/* bench/holes.rt.txt */
uint8_t holes_find(uint64_t holes, uint64_t granted, uint8_t n);

enum {
    POOLS = 128,
    LEVEL = 1,
    MOST_UNITS = 31, /* of a task that holds a part of a pool */
    ALL_UNITS = 31,  /* the module of 64 units; module n - 1 has n */
    MOVES = 4,       /* grants and returns between two pools of a busy level */
    MOST_RUNS = 23,  /* one task block is left for the start */
    NOWHERE = 64
};

struct pool {
    uint64_t granted;
    uint8_t units; /* asked */
};

static struct pool pools[POOLS];
static struct khilzurgee_tables prepared[POOLS];

static void fail(const char *why)
{
    fprintf(stderr, "bench: %s\n", why);
    exit(1);
}

/* The start, unit by unit and hole by hole. */
static int plain(uint64_t rule, uint64_t granted, int units)
{
    int found = NOWHERE, shortest = UNITS + 1;
    for (int start = 0, length; start < UNITS; start += length + 1) {
        length = 0;
        while (start + length < UNITS && (granted >> (start + length) & 1) == 0) {
            length++;
        }
        if (length >= units && (rule == KHILZURGEE_LOWEST_START ? found == NOWHERE : length < shortest)) {
            found = start;
            shortest = length;
        }
    }
    return found;
}

/* ---- the kinds: each fills in all pools, and what is asked of them */

/* Runs of 1 to 12 units, granted and given back at random: two levels by turns,
   one by each rule. All pools are gone over twice, so that none is of the time
   when there were few runs yet. */
static void busy(struct random *random)
{
    struct {
        uint64_t granted, run[MOST_RUNS];
        unsigned runs;
    } levels[2] = {{0}}, *level;
    for (int i = 0; i < 2 * POOLS * MOVES; i++) {
        struct pool *pool = &pools[i / MOVES % POOLS];
        uint64_t rule = (uint64_t)(i / MOVES % 2);
        int units = 1 + (int)random_below(random, 12);
        level = &levels[rule];
        int start = plain(rule, level->granted, units);
        if (level->runs == MOST_RUNS || start == NOWHERE || (level->runs > 0 && random_one_in(random, 3))) {
            uint64_t *run = &level->run[random_below(random, level->runs)];
            level->granted &= ~*run;
            *run = level->run[--level->runs];
        } else {
            level->run[level->runs] = (UINT64_MAX >> (UNITS - units)) << start;
            level->granted |= level->run[level->runs++];
        }
        pool->granted = level->granted;
        pool->units = (uint8_t)(1 + random_below(random, 12));
    }
}

/* A unit in four is granted. */
static void at_random(struct random *random)
{
    for (int i = 0; i < POOLS; i++) {
        uint64_t granted = random_next(random);
        pools[i].granted = granted & random_next(random);
        pools[i].units = (uint8_t)(1 + random_below(random, 6));
    }
}

static void all_alike(uint64_t granted, uint8_t units)
{
    for (int i = 0; i < POOLS; i++) {
        pools[i].granted = granted;
        pools[i].units = units;
    }
}

static void empty_one(struct random *random)
{
    (void)random;
    all_alike(0, 1);
}

static void empty_all(struct random *random)
{
    (void)random;
    all_alike(0, UNITS);
}

static void full(struct random *random)
{
    (void)random;
    all_alike(UINT64_MAX, 1);
}

static const struct {
    const char *name, *words;
    void (*fill)(struct random *random);
} kinds[] = {
    {"busy", "a busy level, 1 to 12 asked", busy},
    {"random", "units at random, 1 to 6 asked", at_random},
    {"empty", "the empty pool, 1 asked", empty_one},
    {"whole", "the empty pool, 64 asked", empty_all},
    {"full", "a full pool, 1 asked", full}
};
enum { KINDS = sizeof kinds / sizeof kinds[0] };

/* ---- tables with such a pool: each granted run is held by tasks that wait for
   an event, which keeps every table rule */

static struct khilzurgee_tables loaded;

static void load(void)
{
    struct directory station = {.modules = MODULES, .every = 1, .events = 1};
    uint8_t image[IMAGE_LENGTH];
    for (int module = 0; module < MODULES; module++) {
        station.module[module].level = LEVEL;
        station.module[module].units = (uint8_t)(module == ALL_UNITS ? UNITS : module + 1);
    }
    image_put(&station, image);
    if (khilzurgee_load(&loaded, image, IMAGE_LENGTH).refusal != 0) {
        fail("the image was refused");
    }
}

static void hold(struct khilzurgee_tables *tables, uint8_t block, int start, int units)
{
    struct khilzurgee_task *task = &tables->tasks[block];
    struct khilzurgee_threads *threads = &tables->threads;
    task->events = 1;
    task->count = 1;
    task->program = (uint8_t)(units - 1);
    task->place = KHILZURGEE_PLACE_EVENT;
    task->core = 1;
    task->start = (uint8_t)start;
    tables->free_tasks &= ~((uint32_t)1 << block);
    if (block == 1) {
        threads->first[0] = block;
    } else {
        threads->fwd[block - 1] = block;
        threads->back[block] = (uint8_t)(block - 1);
    }
    threads->last[0] = block;
}

static void prepare(struct khilzurgee_tables *tables, uint64_t granted)
{
    uint8_t block = 0;
    *tables = loaded;
    tables->pools[LEVEL] = granted;
    for (int start = 0, units; start < UNITS; start += units == 0 ? 1 : units) {
        units = 0;
        while (start + units < UNITS && units < MOST_UNITS && (granted >> (start + units) & 1) == 1) {
            units++;
        }
        if (units > 0) {
            block++;
            if (block > MOST_RUNS) {
                fail("a pool needs more tasks than there are");
            }
            hold(tables, block, start, units);
        }
    }
}

/* ---- the two ways to search. Which function is called is not known to the
   compiler, so none can be left out */

static uint8_t no_search(uint64_t holes, uint64_t granted, uint8_t n)
{
    (void)holes;
    (void)granted;
    return n;
}

static struct khilzurgee_line no_start(struct khilzurgee_tables *tables, const uint8_t *call, size_t length)
{
    (void)tables;
    (void)call;
    (void)length;
    return (struct khilzurgee_line){0, 0, 0};
}

static uint8_t (*volatile find)(uint64_t holes, uint64_t granted, uint8_t n) = holes_find;
static struct khilzurgee_line (*volatile advance)(struct khilzurgee_tables *tables, const uint8_t *call, size_t length) = khilzurgee_advance;

/* The tables after an operator start on the pool i, and its answer. */
static struct khilzurgee_line start_on(struct khilzurgee_tables *tables, int i, uint64_t rule)
{
    uint8_t call[CALL_LENGTH] = {OPERATOR_START, 0, (uint8_t)(pools[i].units == UNITS ? ALL_UNITS : pools[i].units - 1)};
    *tables = prepared[i];
    tables->holes = rule;
    return advance(tables, call, CALL_LENGTH);
}

static void search_all(uint64_t rule)
{
    for (int i = 0; i < POOLS; i++) {
        find(rule, pools[i].granted, pools[i].units);
    }
}

static void start_all(uint64_t rule)
{
    struct khilzurgee_tables tables;
    for (int i = 0; i < POOLS; i++) {
        start_on(&tables, i, rule);
    }
}

/* Whether both ways find what the plain loop finds. */
static void compare(int i, uint64_t rule)
{
    struct khilzurgee_tables tables;
    int found = plain(rule, pools[i].granted, pools[i].units);
    struct khilzurgee_line line = start_on(&tables, i, rule);
    const struct khilzurgee_task *task = &tables.tasks[line.result];
    if (find(rule, pools[i].granted, pools[i].units) != found) {
        fail("the search finds another start than the plain loop");
    }
    if (line.refusal != 0) {
        fail("a start was refused");
    }
    if (found == NOWHERE ? task->place != KHILZURGEE_PLACE_CORE : task->core != 1 || task->start != found) {
        fail("a start grants other units than the plain loop");
    }
}

/* Makes the pools of a kind, and their tables. */
static void make_pools(int kind)
{
    struct random random;
    random_seed(&random, 1972);
    kinds[kind].fill(&random);
    for (int i = 0; i < POOLS; i++) {
        prepare(&prepared[i], pools[i].granted);
    }
}

static void compare_all(int kind)
{
    int others = 0;
    make_pools(kind);
    for (int i = 0; i < POOLS; i++) {
        compare(i, KHILZURGEE_LOWEST_START);
        compare(i, KHILZURGEE_SMALLEST_HOLE);
        others += plain(KHILZURGEE_LOWEST_START, pools[i].granted, pools[i].units)
            != plain(KHILZURGEE_SMALLEST_HOLE, pools[i].granted, pools[i].units);
    }
    printf("%s %d %d %s\n", kinds[kind].name, POOLS, others, kinds[kind].words);
}

static int kind_named(const char *name)
{
    int kind = 0;
    while (kind < KINDS && strcmp(kinds[kind].name, name) != 0) {
        kind++;
    }
    return kind;
}

int main(int argc, char **argv)
{
    int kind = argc == 4 ? kind_named(argv[1]) : KINDS;
    load();
    if (argc == 2 && strcmp(argv[1], "kinds") == 0) {
        for (int i = 0; i < KINDS; i++) {
            compare_all(i);
        }
        return 0;
    }
    if (kind == KINDS) {
        fprintf(stderr, "usage: holes kinds\n       holes KIND search|start none|lowest|smallest\n");
        return 2;
    }
    if (strcmp(argv[3], "none") == 0) {
        find = no_search;
        advance = no_start;
    }
    make_pools(kind);
    uint64_t rule = strcmp(argv[3], "smallest") == 0 ? KHILZURGEE_SMALLEST_HOLE : KHILZURGEE_LOWEST_START;
    if (strcmp(argv[2], "search") == 0) {
        search_all(rule);
    } else {
        start_all(rule);
    }
    return 0;
}
