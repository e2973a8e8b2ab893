/* The library's tables as this program's, and back. Document 01's words on
   what only the library's tables have are tested here: pointers, sets of free
   blocks, the start of a run, slots for no block. */
#include "tables.h"

#include <string.h>

enum {
    NODES = TASKS + REQUESTS, /* task block k is node k, request r 24 + r */
    EVENT_QUEUE = 0,
    READY_QUEUE = 0,          /* and the level */
    CORE_QUEUE = LEVELS,      /* and the level */
    TIME_QUEUE = 7,
    CHANNEL_QUEUE = 8
};

/* The queue of that number. */
static struct queue *queue_of(struct executive *executive, int number)
{
    if (number == EVENT_QUEUE) {
        return &executive->event_queue;
    }
    if (number <= LEVELS) {
        return &executive->ready[number];
    }
    if (number <= CORE_QUEUE + LEVELS) {
        return &executive->core_queue[number - CORE_QUEUE];
    }
    return number == TIME_QUEUE ? &executive->time_queue
                                : &executive->channel_queue;
}

/* "Task and request blocks carry a forward and a back pointer for the queue
   they are on": walks one queue, and marks whom it meets. */
static int walk(const struct khilzurgee_threads *threads, int number,
                struct queue *queue, uint8_t *met)
{
    int before = 0;
    int node = threads->first[number];
    int offset = number == CHANNEL_QUEUE ? TASKS : 0;
    while (node != 0) {
        if (node > NODES || met[node] || threads->back[node] != before
            || (number == CHANNEL_QUEUE) != (node > TASKS)) {
            return 0;
        }
        met[node] = 1;
        queue_join_end(queue, node - offset);
        before = node;
        node = threads->fwd[node];
    }
    return threads->last[number] == before;
}

/* "a forward and a back pointer for the queue they are on": all queues, and
   no pointer elsewhere. */
static int pointers_read(struct executive *executive,
                         const struct khilzurgee_threads *threads)
{
    uint8_t met[NODES + 1] = {0};
    for (int number = 0; number < KHILZURGEE_QUEUES; number++) {
        if (!walk(threads, number, queue_of(executive, number), met)) {
            return 0;
        }
    }
    for (int node = 0; node <= NODES; node++) {
        if (!met[node] && (threads->fwd[node] != 0 || threads->back[node] != 0)) {
            return 0;
        }
    }
    return 1;
}

/* A number of the library's tables that has to fit a byte of ours. */
static uint8_t byte_of(uint64_t number, int *fits)
{
    *fits = *fits && number <= UINT8_MAX;
    return (uint8_t)number;
}

static int directory_read(struct directory *directory,
                          const struct khilzurgee_directory *from)
{
    int fits = 1;
    directory->modules = byte_of(from->modules, &fits);
    directory->every = byte_of(from->every, &fits);
    directory->events = from->defined;
    for (int module = 0; module < MODULES; module++) {
        const struct khilzurgee_entry *entry = &from->entries[module];
        directory->module[module].level = entry->level;
        directory->module[module].units = entry->units;
        directory->module[module].flags = byte_of(entry->flags, &fits);
        directory->module[module].entry = entry->point;
    }
    return fits;
}

static int task_read(struct task *task, const struct khilzurgee_task *from)
{
    int fits = 1;
    task->place = from->place;
    task->module = byte_of(from->program, &fits);
    task->parent = byte_of(from->parent, &fits);
    task->core = from->core;
    task->count = byte_of(from->count, &fits);
    task->awaited = byte_of(from->request, &fits);
    task->time = from->time;
    task->since = from->since;
    task->set = from->events;
    return fits;
}

static void request_read(struct request *request,
                         const struct khilzurgee_request *from)
{
    request->place = from->place;
    request->owner = from->owner;
    request->device = from->device;
    request->command = from->command;
    request->byte_count = from->bytes;
}

/* "Zero names no block": what stands in the slots of none. */
static int slots_zero(const struct khilzurgee_tables *tables)
{
    static const struct khilzurgee_task no_task;
    static const struct khilzurgee_request no_request;
    return memcmp(&tables->tasks[0], &no_task, sizeof no_task) == 0
        && memcmp(&tables->requests[0], &no_request, sizeof no_request) == 0
        && tables->pools[0] == 0;
}

/* "The free blocks are sets." */
static int free_sets(const struct khilzurgee_tables *tables)
{
    uint32_t tasks = 0;
    uint32_t requests = 0;
    for (int block = 1; block <= TASKS; block++) {
        tasks |= (uint32_t)(tables->tasks[block].place == TASK_FREE) << block;
    }
    for (int number = 1; number <= REQUESTS; number++) {
        requests |= (uint32_t)(tables->requests[number].place == REQUEST_FREE)
            << number;
    }
    return tables->free_tasks == tasks && tables->free_requests == requests;
}

/* The run of a block: its units are free until now, and become its own. */
static int run_read(struct executive *executive, int block, unsigned start)
{
    const struct module *module = task_module(executive, block);
    if (start + module->units > UNITS) {
        return 0;
    }
    for (unsigned unit = start; unit < start + module->units; unit++) {
        if (executive->holder[module->level][unit] != 0) {
            return 0;
        }
        executive->holder[module->level][unit] = (uint8_t)block;
    }
    return 1;
}

/* "Core runs of a level are disjoint and with its free units make 64"; the
   start has no meaning where no run is held. The modules are in range. */
static int core_read(struct executive *executive,
                     const struct khilzurgee_tables *tables)
{
    for (int block = 1; block <= TASKS; block++) {
        const struct khilzurgee_task *task = &tables->tasks[block];
        if (task->core == CORE_HELD
                ? !run_read(executive, block, task->start) : task->start != 0) {
            return 0;
        }
    }
    for (int level = 1; level <= LEVELS; level++) {
        for (int unit = 0; unit < UNITS; unit++) {
            if ((tables->pools[level] >> unit & 1)
                != (executive->holder[level][unit] != 0)) {
                return 0;
            }
        }
    }
    return 1;
}

static int tasks_read(struct executive *executive,
                      const struct khilzurgee_tables *tables)
{
    for (int block = 1; block <= TASKS; block++) {
        if (!task_read(&executive->task[block], &tables->tasks[block])
            || executive->task[block].module >= executive->directory.modules) {
            return 0;
        }
    }
    return 1;
}

const char *tables_read(struct executive *executive,
                        const struct khilzurgee_tables *tables)
{
    memset(executive, 0, sizeof *executive);
    executive->on = tables->on;
    executive->signalled = tables->signalled;
    executive->clock = tables->clock;
    executive->running = tables->running;
    executive->channel = tables->channel;
    executive->holes = tables->holes;
    for (int number = 1; number <= REQUESTS; number++) {
        request_read(&executive->request[number], &tables->requests[number]);
    }
    if (!directory_read(&executive->directory, &tables->directory)
        || directory_refusal(&executive->directory) != 0) {
        return "the directory passes 4 to 7";
    }
    if (!tasks_read(executive, tables)) {
        return "every field in range";
    }
    if (!pointers_read(executive, &tables->threads)) {
        return "a forward and a back pointer for the queue they are on";
    }
    if (!slots_zero(tables)) {
        return "zero names no block";
    }
    if (!free_sets(tables)) {
        return "the free blocks are sets";
    }
    if (!core_read(executive, tables)) {
        return "core runs disjoint, with the free units 64";
    }
    return NULL;
}

static void directory_write(struct khilzurgee_directory *to,
                            const struct directory *directory)
{
    to->modules = directory->modules;
    to->every = directory->every;
    to->defined = directory->events;
    for (int module = 0; module < MODULES; module++) {
        struct khilzurgee_entry *entry = &to->entries[module];
        entry->level = directory->module[module].level;
        entry->units = directory->module[module].units;
        entry->flags = directory->module[module].flags;
        entry->point = directory->module[module].entry;
    }
}

/* The lowest unit of its level that names the block. */
static uint8_t start_of(const struct executive *executive, int block)
{
    const uint8_t *holder = executive->holder[task_level(executive, block)];
    for (uint8_t unit = 0; unit < UNITS; unit++) {
        if (holder[unit] == block) {
            return unit;
        }
    }
    return 0;
}

static void task_write(struct khilzurgee_task *to,
                       const struct executive *executive, int block)
{
    const struct task *task = &executive->task[block];
    to->place = task->place;
    to->program = task->module;
    to->parent = task->parent;
    to->core = task->core;
    to->start = task->core == CORE_HELD ? start_of(executive, block) : 0;
    to->count = task->count;
    to->request = task->awaited;
    to->time = task->time;
    to->since = task->since;
    to->events = task->set;
}

/* The pointers of one queue. */
static void thread(struct khilzurgee_threads *threads, int number,
                   const struct queue *queue)
{
    uint8_t before = 0;
    uint8_t offset = number == CHANNEL_QUEUE ? TASKS : 0;
    for (int i = 0; i < queue->count; i++) {
        uint8_t node = (uint8_t)(queue->block[i] + offset);
        if (before == 0) {
            threads->first[number] = node;
        } else {
            threads->fwd[before] = node;
        }
        threads->back[node] = before;
        before = node;
    }
    threads->last[number] = before;
}

static void pools_write(struct khilzurgee_tables *tables,
                        const struct executive *executive)
{
    for (int level = 1; level <= LEVELS; level++) {
        for (int unit = 0; unit < UNITS; unit++) {
            tables->pools[level] |=
                (uint64_t)(executive->holder[level][unit] != 0) << unit;
        }
    }
}

void tables_write(struct khilzurgee_tables *tables,
                  const struct executive *executive)
{
    struct executive copy = *executive;
    memset(tables, 0, sizeof *tables);
    directory_write(&tables->directory, &executive->directory);
    tables->on = executive->on;
    tables->signalled = executive->signalled;
    tables->clock = executive->clock;
    tables->running = executive->running;
    tables->channel = executive->channel;
    tables->holes = executive->holes;
    pools_write(tables, executive);
    for (int block = 1; block <= TASKS; block++) {
        task_write(&tables->tasks[block], executive, block);
        tables->free_tasks |=
            (uint32_t)(executive->task[block].place == TASK_FREE) << block;
    }
    for (int number = 1; number <= REQUESTS; number++) {
        const struct request *request = &executive->request[number];
        struct khilzurgee_request *to = &tables->requests[number];
        to->place = request->place;
        to->owner = request->owner;
        to->device = request->device;
        to->command = request->command;
        to->bytes = (uint16_t)request->byte_count;
        tables->free_requests |=
            (uint32_t)(request->place == REQUEST_FREE) << number;
    }
    for (int number = 0; number < KHILZURGEE_QUEUES; number++) {
        thread(&tables->threads, number, queue_of(&copy, number));
    }
}
