/* "Table rules, exactly": each rule one function under its words, in document
   01's order; what "the table rules gain" by document 02 stands behind the rule
   that speaks of the same. Each answers 1 if the tables keep it. */
#include "rules.h"

/* "the directory passes 4 to 7" */
static int directory_passes(const struct executive *executive)
{
    return directory_refusal(&executive->directory) == 0;
}

/* A queue holds block numbers from 1 to `most`, and zero behind them. */
static int queue_in_range(const struct queue *queue, int most)
{
    if (queue->count > most) {
        return 0;
    }
    for (int i = 0; i < QUEUE_ROOM; i++) {
        int block = queue->block[i];
        if (i < queue->count ? block < 1 || block > most : block != 0) {
            return 0;
        }
    }
    return 1;
}

/* "every field in range": the queues; level 0 is none and has empty ones. */
static int queues_in_range(const struct executive *executive)
{
    for (int level = 0; level <= LEVELS; level++) {
        int most = level == 0 ? 0 : TASKS;
        if (!queue_in_range(&executive->ready[level], most)
            || !queue_in_range(&executive->core_queue[level], most)) {
            return 0;
        }
    }
    return queue_in_range(&executive->event_queue, TASKS)
        && queue_in_range(&executive->time_queue, TASKS)
        && queue_in_range(&executive->channel_queue, REQUESTS);
}

/* "every field in range": the task blocks. Block 0 is none and stays free. */
static int tasks_in_range(const struct executive *executive)
{
    for (int block = 0; block <= TASKS; block++) {
        const struct task *task = &executive->task[block];
        if (task->place > (block == 0 ? TASK_FREE : ENDING)
            || task->module >= executive->directory.modules
            || task->parent > TASKS || task->core > CORE_GIVEN_BACK
            || task->awaited > REQUESTS) {
            return 0;
        }
    }
    return 1;
}

/* "every field in range": the request blocks. What a READ or WRITE could not
   have asked for is out of range. */
static int requests_in_range(const struct executive *executive)
{
    for (int number = 0; number <= REQUESTS; number++) {
        const struct request *request = &executive->request[number];
        if (request->place > (number == 0 ? REQUEST_FREE : DONE)
            || request->owner > TASKS) {
            return 0;
        }
        if (request->place != REQUEST_FREE
            && ((request->command != READ && request->command != WRITE)
                || request->device >= DEVICES || request->byte_count < 1
                || request->byte_count > BYTE_COUNT_MOST)) {
            return 0;
        }
    }
    return 1;
}

/* "every field in range" */
static int fields_in_range(const struct executive *executive)
{
    for (int level = 0; level <= LEVELS; level++) {
        for (int unit = 0; unit < UNITS; unit++) {
            if (executive->holder[level][unit] > (level == 0 ? 0 : TASKS)) {
                return 0;
            }
        }
    }
    return executive->running <= TASKS && executive->channel <= REQUESTS
        && executive->holes <= SMALLEST_HOLE
        && queues_in_range(executive) && tasks_in_range(executive)
        && requests_in_range(executive);
}

/* "events on are defined" */
static int events_on_defined(const struct executive *executive)
{
    return (executive->on & ~executive->directory.events) == 0;
}

/* Document 02, E1: "an event that is on has been signalled" */
static int events_on_signalled(const struct executive *executive)
{
    return (executive->on & ~executive->signalled) == 0;
}

/* Document 02, E1: "and a signalled one is defined" */
static int events_signalled_defined(const struct executive *executive)
{
    return (executive->signalled & ~executive->directory.events) == 0;
}

/* Every block on the queue says that it is in that place; count it. */
static int count_on_queue(const struct executive *executive,
                          const struct queue *queue, int place, int *times)
{
    for (int i = 0; i < queue->count; i++) {
        int block = queue->block[i];
        if (executive->task[block].place != place) {
            return 0;
        }
        times[block]++;
    }
    return 1;
}

/* "A task block is in one of these places": one that says it is on a queue or
   running is there once, and no other is. */
static int tasks_in_one_place(const struct executive *executive)
{
    int times[TASKS + 1] = {0};
    for (int level = 1; level <= LEVELS; level++) {
        if (!count_on_queue(executive, &executive->ready[level], READY, times)
            || !count_on_queue(executive, &executive->core_queue[level],
                               WAITS_FOR_CORE, times)) {
            return 0;
        }
    }
    if (!count_on_queue(executive, &executive->event_queue, WAITS_FOR_EVENTS,
                        times)
        || !count_on_queue(executive, &executive->time_queue, WAITS_FOR_TIME,
                           times)) {
        return 0;
    }
    for (int block = 1; block <= TASKS; block++) {
        int place = executive->task[block].place;
        int queued = place == READY || place == WAITS_FOR_CORE
            || place == WAITS_FOR_EVENTS || place == WAITS_FOR_TIME;
        if (times[block] != queued
            || (place == RUNNING) != (executive->running == block)) {
            return 0;
        }
    }
    return 1;
}

/* "A request block is free, queued, on the channel or done." */
static int requests_in_one_place(const struct executive *executive)
{
    int times[REQUESTS + 1] = {0};
    for (int i = 0; i < executive->channel_queue.count; i++) {
        times[executive->channel_queue.block[i]]++;
    }
    for (int number = 1; number <= REQUESTS; number++) {
        int place = executive->request[number].place;
        if (times[number] != (place == QUEUED)
            || (place == ON_CHANNEL) != (executive->channel == number)) {
            return 0;
        }
    }
    return 1;
}

/* "A free block [...] is zero." */
static int free_blocks_zero(const struct executive *executive)
{
    for (int block = 0; block <= TASKS; block++) {
        const struct task *task = &executive->task[block];
        if (task->place == TASK_FREE
            && (task->module != 0 || task->parent != 0 || task->core != 0)) {
            return 0;
        }
    }
    for (int number = 0; number <= REQUESTS; number++) {
        const struct request *request = &executive->request[number];
        if (request->place == REQUEST_FREE
            && (request->owner != 0 || request->device != 0
                || request->command != 0 || request->byte_count != 0)) {
            return 0;
        }
    }
    return 1;
}

/* "any field with no meaning in the block's present place, is zero". Core has
   none for a module without units. Document 02, E6: the clock reading is "0
   while free, ready or running". */
static int idle_fields_zero(const struct executive *executive)
{
    for (int block = 0; block <= TASKS; block++) {
        const struct task *task = &executive->task[block];
        if (task->place != WAITS_FOR_EVENTS
            && (task->count != 0 || task->set != 0)) {
            return 0;
        }
        if (task->place != WAITS_FOR_TIME && task->time != 0) {
            return 0;
        }
        if (task->place != IN_CHECK && task->awaited != 0) {
            return 0;
        }
        if (!place_waits(task->place) && task->since != 0) {
            return 0;
        }
        if (task_module(executive, block)->units == 0
            && task->core != CORE_NONE_YET) {
            return 0;
        }
    }
    return 1;
}

/* How many units of the level name the block? */
static int units_held(const struct executive *executive, int level, int block)
{
    int held = 0;
    for (int unit = 0; unit < UNITS; unit++) {
        held += executive->holder[level][unit] == block;
    }
    return held;
}

/* "Core runs of a level are disjoint and with its free units make 64": a unit
   is free or belongs to one task that holds core of this level. */
static int core_adds_up(const struct executive *executive)
{
    for (int level = 1; level <= LEVELS; level++) {
        for (int unit = 0; unit < UNITS; unit++) {
            int block = executive->holder[level][unit];
            if (block != 0 && (executive->task[block].core != CORE_HELD
                               || task_level(executive, block) != level)) {
                return 0;
            }
        }
    }
    return 1;
}

/* "LINK parents never form a ring, so an abort takes at most 24 tasks" */
static int no_ring(const struct executive *executive)
{
    for (int block = 1; block <= TASKS; block++) {
        int steps = 0;
        for (int at = block; at != 0; at = executive->task[at].parent) {
            steps++;
            if (steps > TASKS) {
                return 0;
            }
        }
    }
    return 1;
}

/* "The processor is idle only if nothing is ready" */
static int idle_only_if_nothing_ready(const struct executive *executive)
{
    return executive->running != 0 || best_ready_level(executive) == 0;
}

/* "No event waiter's condition already holds" */
static int no_condition_holds(const struct executive *executive)
{
    const struct queue *queue = &executive->event_queue;
    for (int i = 0; i < queue->count; i++) {
        const struct task *task = &executive->task[queue->block[i]];
        if (events_hold(executive, task->set, task->count)) {
            return 0;
        }
    }
    return 1;
}

/* The longest free run of a level. */
static int longest_free_run(const struct executive *executive, int level)
{
    int longest = 0;
    int run = 0;
    for (int unit = 0; unit < UNITS; unit++) {
        run = executive->holder[level][unit] == 0 ? run + 1 : 0;
        longest = run > longest ? run : longest;
    }
    return longest;
}

/* "no first waiter for core would fit" */
static int no_first_waiter_fits(const struct executive *executive)
{
    for (int level = 1; level <= LEVELS; level++) {
        const struct queue *queue = &executive->core_queue[level];
        if (queue->count > 0
            && task_module(executive, queue->block[0])->units
               <= longest_free_run(executive, level)) {
            return 0;
        }
    }
    return 1;
}

/* Document 02, E6: "Demand 3 gains: it is never past the clock." */
static int readings_not_past(const struct executive *executive)
{
    for (int block = 0; block <= TASKS; block++) {
        if (executive->task[block].since > executive->clock) {
            return 0;
        }
    }
    return 1;
}

/* "the time queue by time" */
static int time_queue_by_time(const struct executive *executive)
{
    const struct queue *queue = &executive->time_queue;
    for (int i = 1; i < queue->count; i++) {
        if (executive->task[queue->block[i - 1]].time
            > executive->task[queue->block[i]].time) {
            return 0;
        }
    }
    return 1;
}

/* "the channel queue by level" */
static int channel_queue_by_level(const struct executive *executive)
{
    const struct queue *queue = &executive->channel_queue;
    for (int i = 1; i < queue->count; i++) {
        int before = executive->request[queue->block[i - 1]].owner;
        int behind = executive->request[queue->block[i]].owner;
        if (task_level(executive, before) > task_level(executive, behind)) {
            return 0;
        }
    }
    return 1;
}

/* Is every block on the queue of that level? */
static int all_of_level(const struct executive *executive,
                        const struct queue *queue, int level)
{
    for (int i = 0; i < queue->count; i++) {
        if (task_level(executive, queue->block[i]) != level) {
            return 0;
        }
    }
    return 1;
}

/* "ready and core queues hold their level's tasks" */
static int queues_hold_own_level(const struct executive *executive)
{
    for (int level = 1; level <= LEVELS; level++) {
        if (!all_of_level(executive, &executive->ready[level], level)
            || !all_of_level(executive, &executive->core_queue[level], level)) {
            return 0;
        }
    }
    return 1;
}

/* "a run has its module's length": as many units as the module has, and one
   start. */
static int runs_have_length(const struct executive *executive)
{
    int starts[TASKS + 1] = {0};
    for (int level = 1; level <= LEVELS; level++) {
        const uint8_t *holder = executive->holder[level];
        for (int unit = 0; unit < UNITS; unit++) {
            if (unit == 0 || holder[unit] != holder[unit - 1]) {
                starts[holder[unit]]++;
            }
        }
    }
    for (int block = 1; block <= TASKS; block++) {
        if (executive->task[block].core == CORE_HELD
            && (starts[block] != 1
                || units_held(executive, task_level(executive, block), block)
                   != task_module(executive, block)->units)) {
            return 0;
        }
    }
    return 1;
}

/* "core waiters still need core, and besides them only event and time waiters
   may" */
static int core_need_in_place(const struct executive *executive)
{
    for (int block = 1; block <= TASKS; block++) {
        int place = executive->task[block].place;
        int needs = still_needs_core(executive, block);
        int may = place == WAITS_FOR_CORE || place == WAITS_FOR_EVENTS
            || place == WAITS_FOR_TIME || place == TASK_FREE;
        if ((place == WAITS_FOR_CORE && !needs) || (needs && !may)) {
            return 0;
        }
    }
    return 1;
}

/* "event waiters pass 13 and 14" */
static int event_waiters_pass(const struct executive *executive)
{
    const struct queue *queue = &executive->event_queue;
    for (int i = 0; i < queue->count; i++) {
        const struct task *task = &executive->task[queue->block[i]];
        if ((task->set & ~executive->directory.events) != 0
            || task->count < 1 || task->count > count_ones(task->set)) {
            return 0;
        }
    }
    return 1;
}

/* "a LINK waiter has exactly one child, a parent is in LINK" */
static int links_agree(const struct executive *executive)
{
    int children[TASKS + 1] = {0};
    for (int block = 1; block <= TASKS; block++) {
        children[executive->task[block].parent]++;
    }
    for (int block = 1; block <= TASKS; block++) {
        if (children[block] != (executive->task[block].place == IN_LINK)) {
            return 0;
        }
    }
    return 1;
}

/* "a used request's owner is a used task" */
static int owners_used(const struct executive *executive)
{
    for (int number = 1; number <= REQUESTS; number++) {
        const struct request *request = &executive->request[number];
        if (request->place != REQUEST_FREE
            && executive->task[request->owner].place == TASK_FREE) {
            return 0;
        }
    }
    return 1;
}

/* "CHECK waits for an own pending request" */
static int check_waits_for_own(const struct executive *executive)
{
    for (int block = 1; block <= TASKS; block++) {
        const struct task *task = &executive->task[block];
        const struct request *request = &executive->request[task->awaited];
        if (task->place == IN_CHECK
            && (request->owner != block || !request_is_pending(request))) {
            return 0;
        }
    }
    return 1;
}

/* "an ending task has one" */
static int ending_has_pending(const struct executive *executive)
{
    for (int block = 1; block <= TASKS; block++) {
        if (executive->task[block].place == ENDING
            && !has_pending(executive, block)) {
            return 0;
        }
    }
    return 1;
}

/* "no queue behind an empty channel" */
static int no_queue_behind_empty(const struct executive *executive)
{
    return executive->channel != 0 || executive->channel_queue.count == 0;
}

/* The rules, in the order of the functions. */
static const struct {
    const char *words;
    int (*kept)(const struct executive *executive);
} rule_table[] = {
    {"the directory passes 4 to 7", directory_passes},
    {"every field in range", fields_in_range},
    {"events on are defined", events_on_defined},
    {"an event that is on has been signalled", events_on_signalled},
    {"a signalled event is defined", events_signalled_defined},
    {"each task block in exactly one place", tasks_in_one_place},
    {"each request block in exactly one place", requests_in_one_place},
    {"a free block is zero", free_blocks_zero},
    {"any field with no meaning is zero", idle_fields_zero},
    {"core runs disjoint, with the free units 64", core_adds_up},
    {"LINK parents never form a ring", no_ring},
    {"idle only if nothing is ready", idle_only_if_nothing_ready},
    {"no event waiter's condition already holds", no_condition_holds},
    {"no first waiter for core would fit", no_first_waiter_fits},
    {"the reading of a wait is never past the clock", readings_not_past},
    {"the time queue by time", time_queue_by_time},
    {"the channel queue by level", channel_queue_by_level},
    {"ready and core queues hold their level's tasks", queues_hold_own_level},
    {"a run has its module's length", runs_have_length},
    {"core waiters still need core, besides them only event and time waiters",
     core_need_in_place},
    {"event waiters pass 13 and 14", event_waiters_pass},
    {"a LINK waiter has exactly one child, a parent is in LINK", links_agree},
    {"a used request's owner is a used task", owners_used},
    {"CHECK waits for an own pending request", check_waits_for_own},
    {"an ending task has one", ending_has_pending},
    {"no queue behind an empty channel", no_queue_behind_empty},
};

/* "Table rules, exactly" */
const char *rules_broken(const struct executive *executive)
{
    size_t rules = sizeof rule_table / sizeof rule_table[0];
    for (size_t rule = 0; rule < rules; rule++) {
        if (!rule_table[rule].kept(executive)) {
            return rule_table[rule].words;
        }
    }
    return NULL;
}
