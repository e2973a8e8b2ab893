/* Edits of tables: of one field, and of what fields mean together. */
#include "edits.h"

#include <stddef.h>

/* Another value for a number: near it, small, or any. */
static uint64_t another(struct random *random, uint64_t old)
{
    unsigned shift = random_below(random, 64);
    switch (random_below(random, 6)) {
    case 0:
        return old + 1;
    case 1:
        return old - 1;
    case 2:
        return old ^ UINT64_C(1) << shift;
    case 3:
        return 0;
    case 4:
        return random_below(random, 41);
    default:
        return random_next(random);
    }
}

/* A number in a struct: where it lies, and how many bytes it has. */
struct field {
    size_t at;
    size_t size;
};
#define FIELD(type, name) \
    {offsetof(struct type, name), sizeof ((struct type *)0)->name}
#define FIELDS(list) (unsigned)(sizeof(list) / sizeof(list)[0])

static const struct field numbers[] = {
    FIELD(khilzurgee_tables, directory.modules),
    FIELD(khilzurgee_tables, directory.every),
    FIELD(khilzurgee_tables, directory.defined),
    FIELD(khilzurgee_tables, clock),
    FIELD(khilzurgee_tables, on),
    FIELD(khilzurgee_tables, signalled),
    FIELD(khilzurgee_tables, running),
    FIELD(khilzurgee_tables, channel),
    FIELD(khilzurgee_tables, free_tasks),
    FIELD(khilzurgee_tables, free_requests),
    FIELD(khilzurgee_tables, pools[0]),
    FIELD(khilzurgee_tables, pools[1]),
    FIELD(khilzurgee_tables, pools[2]),
    FIELD(khilzurgee_tables, pools[3]),
    FIELD(khilzurgee_tables, holes),
};
static const struct field of_entry[] = {
    FIELD(khilzurgee_entry, level),
    FIELD(khilzurgee_entry, units),
    FIELD(khilzurgee_entry, flags),
    FIELD(khilzurgee_entry, point),
};
static const struct field of_task[] = {
    FIELD(khilzurgee_task, place),
    FIELD(khilzurgee_task, program),
    FIELD(khilzurgee_task, parent),
    FIELD(khilzurgee_task, core),
    FIELD(khilzurgee_task, start),
    FIELD(khilzurgee_task, count),
    FIELD(khilzurgee_task, events),
    FIELD(khilzurgee_task, time),
    FIELD(khilzurgee_task, since),
    FIELD(khilzurgee_task, request),
};
static const struct field of_request[] = {
    FIELD(khilzurgee_request, place),
    FIELD(khilzurgee_request, owner),
    FIELD(khilzurgee_request, device),
    FIELD(khilzurgee_request, command),
    FIELD(khilzurgee_request, bytes),
};

/* One of the fields gets another value. */
static void edit_one(void *base, const struct field *fields, unsigned count,
                     struct random *random)
{
    const struct field *field = &fields[random_below(random, count)];
    uint8_t *bytes = (uint8_t *)base + field->at;
    uint64_t old = number_get(bytes, field->size);
    number_put(bytes, field->size, another(random, old));
}

static void edit_threads(struct khilzurgee_threads *threads,
                         struct random *random)
{
    unsigned node = random_below(random, TASKS + REQUESTS + 1);
    unsigned queue = random_below(random, KHILZURGEE_QUEUES);
    uint8_t *cells[] = {&threads->fwd[node], &threads->back[node],
                        &threads->first[queue], &threads->last[queue]};
    uint8_t *cell = cells[random_below(random, 4)];
    *cell = (uint8_t)another(random, *cell);
}

void edit_field(struct khilzurgee_tables *tables, struct random *random)
{
    unsigned block = random_below(random, TASKS + 1);
    unsigned number = random_below(random, REQUESTS + 1);
    unsigned module = random_below(random, MODULES);
    switch (random_below(random, 7)) {
    case 0:
        edit_one(tables, numbers, FIELDS(numbers), random);
        break;
    case 1:
        edit_one(&tables->directory.entries[module], of_entry,
                 FIELDS(of_entry), random);
        break;
    case 2:
        edit_one(&tables->requests[number], of_request, FIELDS(of_request),
                 random);
        break;
    case 3:
        edit_threads(&tables->threads, random);
        break;
    default:
        edit_one(&tables->tasks[block], of_task, FIELDS(of_task), random);
        break;
    }
}

/* ---- What fields mean together. */

/* One of the queues, by chance. */
static struct queue *some_queue(struct executive *executive,
                                struct random *random)
{
    unsigned level = 1 + random_below(random, LEVELS);
    switch (random_below(random, 5)) {
    case 0:
        return &executive->ready[level];
    case 1:
        return &executive->core_queue[level];
    case 2:
        return &executive->event_queue;
    case 3:
        return &executive->time_queue;
    default:
        return &executive->channel_queue;
    }
}

/* Two of a queue change their turns. */
static void swap_turns(struct executive *executive, struct random *random)
{
    struct queue *queue = some_queue(executive, random);
    if (queue->count >= 2) {
        unsigned i = random_below(random, queue->count);
        unsigned j = random_below(random, queue->count);
        uint8_t block = queue->block[i];
        queue->block[i] = queue->block[j];
        queue->block[j] = block;
    }
}

/* Takes a block out of the queue that it is on, if any. */
static void unqueue(struct queue *queue, int block)
{
    for (int i = 0; i < queue->count; i++) {
        if (queue->block[i] == block) {
            queue_take(queue, i);
            return;
        }
    }
}

static void unqueue_task(struct executive *executive, int block)
{
    for (int level = 1; level <= LEVELS; level++) {
        unqueue(&executive->ready[level], block);
        unqueue(&executive->core_queue[level], block);
    }
    unqueue(&executive->event_queue, block);
    unqueue(&executive->time_queue, block);
    if (executive->running == block) {
        executive->running = 0;
    }
}

/* A task goes to another place, in that place's queue, by its own level or by
   any; what the old place needed may stay. */
static void move_task(struct executive *executive, struct random *random)
{
    unsigned block = 1 + random_below(random, TASKS);
    struct task *task = &executive->task[block];
    int level = random_one_in(random, 4) ? 1 + (int)random_below(random, LEVELS)
                                         : task_level(executive, (int)block);
    unqueue_task(executive, (int)block);
    task->place = (uint8_t)random_below(random, ENDING + 1);
    if (random_one_in(random, 2)) {
        task->count = 0;
        task->set = 0;
        task->time = 0;
        task->since = 0;
        task->awaited = 0;
    }
    if (task->place == RUNNING) {
        executive->running = (uint8_t)block;
    } else if (task->place == READY) {
        queue_join_end(&executive->ready[level], (int)block);
    } else if (task->place == WAITS_FOR_CORE) {
        queue_join_end(&executive->core_queue[level], (int)block);
    } else if (task->place == WAITS_FOR_EVENTS) {
        queue_join_end(&executive->event_queue, (int)block);
    } else if (task->place == WAITS_FOR_TIME) {
        queue_join_end(&executive->time_queue, (int)block);
    }
}

/* A request goes to another place. */
static void move_request(struct executive *executive, struct random *random)
{
    unsigned number = 1 + random_below(random, REQUESTS);
    struct request *request = &executive->request[number];
    unqueue(&executive->channel_queue, (int)number);
    if (executive->channel == number) {
        executive->channel = 0;
    }
    request->place = (uint8_t)random_below(random, DONE + 1);
    if (request->place == QUEUED) {
        queue_join_end(&executive->channel_queue, (int)number);
    } else if (request->place == ON_CHANNEL) {
        executive->channel = (uint8_t)number;
    }
}

/* A task gives its run back, or has one from somewhere on. */
static void move_run(struct executive *executive, struct random *random)
{
    unsigned block = 1 + random_below(random, TASKS);
    int level = task_level(executive, (int)block);
    unsigned start = random_below(random, UNITS);
    unsigned units = task_module(executive, (int)block)->units;
    for (int unit = 0; unit < UNITS; unit++) {
        if (executive->holder[level][unit] == block) {
            executive->holder[level][unit] = 0;
        }
    }
    executive->task[block].core = (uint8_t)random_below(random, 3);
    for (unsigned i = 0; i < units && executive->task[block].core == CORE_HELD;
         i++) {
        if (start + i < UNITS && executive->holder[level][start + i] == 0) {
            executive->holder[level][start + i] = (uint8_t)block;
        }
    }
}

/* A set of one event: of one that is on, of a defined one, or of any. */
static uint64_t some_event(const struct executive *executive,
                           struct random *random)
{
    const uint64_t sets[] = {executive->on, executive->directory.events,
                             UINT64_MAX};
    uint64_t set = sets[random_below(random, 3)];
    unsigned event = random_below(random, EVENTS);
    while (set != 0 && ((set >> event) & 1) == 0) {
        event = (event + 1) % EVENTS;
    }
    return UINT64_C(1) << event;
}

/* A clock reading on either side of the clock: one before it, the clock itself,
   or one past it. At clock 0 the first is past it too. */
static uint32_t some_reading(const struct executive *executive,
                             struct random *random)
{
    return executive->clock - 1 + random_below(random, 3);
}

/* An event goes on or off, or becomes one that was signalled or that never was;
   or the grants go by another rule, or by one that there is not. */
static void change_no_block(struct executive *executive, struct random *random)
{
    switch (random_below(random, 3)) {
    case 0:
        executive->on ^= some_event(executive, random);
        break;
    case 1:
        executive->signalled ^= some_event(executive, random);
        break;
    default:
        executive->holes = random_below(random, 3);
        break;
    }
}

/* One of the other things that a block says, or something of no block. */
static void change_block(struct executive *executive, struct random *random)
{
    unsigned block = 1 + random_below(random, TASKS);
    struct task *task = &executive->task[block];
    unsigned number = 1 + random_below(random, REQUESTS);
    unsigned event = random_below(random, EVENTS);
    switch (random_below(random, 11)) {
    case 0:
        task->parent = (uint8_t)random_below(random, TASKS + 1);
        break;
    case 1:
        task->module = (uint8_t)random_below(random, executive->directory.modules);
        break;
    case 2:
        task->count = (uint8_t)random_below(random, 5);
        break;
    case 3:
        task->set ^= UINT64_C(1) << event;
        break;
    case 4:
        task->time = executive->clock + random_below(random, 4);
        break;
    case 5:
        task->awaited = (uint8_t)random_below(random, REQUESTS + 1);
        break;
    case 6:
        task->since = some_reading(executive, random);
        break;
    case 7:
        executive->request[number].owner = (uint8_t)random_below(random, TASKS + 1);
        break;
    default:
        change_no_block(executive, random);
        break;
    }
}

/* A task of a chain of LINKs and one above it change their parents: a ring, in
   which each still has one child. */
static void close_ring(struct executive *executive, struct random *random)
{
    unsigned block = 1 + random_below(random, TASKS);
    unsigned steps = 1 + random_below(random, 3);
    unsigned above = block;
    for (unsigned i = 0; i < steps && executive->task[above].parent != 0; i++) {
        above = executive->task[above].parent;
    }
    uint8_t parent = executive->task[block].parent;
    executive->task[block].parent = executive->task[above].parent;
    executive->task[above].parent = parent;
}

void edit_meaning(struct executive *executive, struct random *random)
{
    switch (random_below(random, 7)) {
    case 0:
        swap_turns(executive, random);
        break;
    case 1:
    case 2:
        move_task(executive, random);
        break;
    case 3:
        move_request(executive, random);
        break;
    case 4:
        move_run(executive, random);
        break;
    case 5:
        close_ring(executive, random);
        break;
    default:
        change_block(executive, random);
        break;
    }
}
