/* Core and getting ready. "Nobody overtakes." */
#include "executive.h"

enum { NO_RUN = -1 };

grant_witness *witness_of_grants;

/* "module units above 0, none granted yet" */
int still_needs_core(const struct executive *executive, int block)
{
    return task_module(executive, block)->units > 0
        && executive->task[block].core == CORE_NONE_YET;
}

/* Are `units` units free from `start` on? */
static int is_free_run(const struct executive *executive, int level,
                       int start, int units)
{
    for (int unit = start; unit < start + units; unit++) {
        if (executive->holder[level][unit] != 0) {
            return 0;
        }
    }
    return 1;
}

/* "the lowest start at which enough are free"; NO_RUN if "no free run is
   long enough" */
static int lowest_start(const struct executive *executive, int level, int units)
{
    for (int start = 0; start + units <= UNITS; start++) {
        if (is_free_run(executive, level, start, units)) {
            return start;
        }
    }
    return NO_RUN;
}

/* How many units are free from `start` on, up to a held one or the pool's
   end? */
static int free_from(const struct executive *executive, int level, int start)
{
    int unit = start;
    while (unit < UNITS && executive->holder[level][unit] == 0) {
        unit++;
    }
    return unit - start;
}

/* Document 02, E8: "the start of the shortest unbroken free run that is long
   enough, the lowest of equals"; NO_RUN if none is. Goes over the units hole by
   hole, and over the held unit behind each. */
static int smallest_hole(const struct executive *executive, int level, int units)
{
    int found = NO_RUN;
    int shortest = UNITS + 1;
    int start = 0;
    while (start < UNITS) {
        int length = free_from(executive, level, start);
        if (length >= units && length < shortest) {
            found = start;
            shortest = length;
        }
        start += length + 1;
    }
    return found;
}

/* Which start a grant takes, by the rule of the load; NO_RUN if "no free run is
   long enough". "The rule for who waits is unchanged." */
static int start_for(const struct executive *executive, int block)
{
    int level = task_level(executive, block);
    int units = task_module(executive, block)->units;
    if (executive->holes == LOWEST_START) {
        return lowest_start(executive, level, units);
    }
    return smallest_hole(executive, level, units);
}

/* "it gets the units from" the start on */
static void grant(struct executive *executive, int block, int start)
{
    int level = task_level(executive, block);
    int units = task_module(executive, block)->units;
    if (witness_of_grants != NULL) {
        witness_of_grants(executive, block, start);
    }
    for (int unit = start; unit < start + units; unit++) {
        executive->holder[level][unit] = (uint8_t)block;
    }
    executive->task[block].core = CORE_HELD;
}

/* "goes to the end of its level's ready queue" */
static void join_ready(struct executive *executive, int block)
{
    task_put(executive, block, READY);
    queue_join_end(&executive->ready[task_level(executive, block)], block);
}

/* "any field with no meaning in the block's present place, is zero": what a
   task waited for goes when it waits no more. */
static void forget_wait(struct task *task)
{
    task->count = 0;
    task->set = 0;
    task->time = 0;
    task->awaited = 0;
}

/* "Making a task ready: if it still needs core [...], it joins the end of its
   level's core queue when that queue isn't empty or no free run is long
   enough; otherwise it gets the units [...], and goes to the end of its
   level's ready queue. A task that needs none goes there directly." */
void make_ready(struct executive *executive, int block)
{
    int level = task_level(executive, block);
    struct queue *waiters = &executive->core_queue[level];
    forget_wait(&executive->task[block]);
    if (still_needs_core(executive, block)) {
        int start = start_for(executive, block);
        if (waiters->count > 0 || start == NO_RUN) {
            task_put(executive, block, WAITS_FOR_CORE);
            queue_join_end(waiters, block);
            return;
        }
        grant(executive, block, start);
    }
    join_ready(executive, block);
}

/* "its core queue is served from the front, stopping at the first that
   doesn't fit" */
static void serve_core_queue(struct executive *executive, int level)
{
    struct queue *waiters = &executive->core_queue[level];
    while (waiters->count > 0) {
        int start = start_for(executive, waiters->block[0]);
        if (start == NO_RUN) {
            return;
        }
        int block = queue_take(waiters, 0);
        grant(executive, block, start);
        join_ready(executive, block);
    }
}

/* "frees the caller's run, if any; it isn't granted again", and "When core of
   a level is freed, its core queue is served". */
void free_core(struct executive *executive, int block)
{
    int level = task_level(executive, block);
    if (executive->task[block].core != CORE_HELD) {
        return;
    }
    for (int unit = 0; unit < UNITS; unit++) {
        if (executive->holder[level][unit] == block) {
            executive->holder[level][unit] = 0;
        }
    }
    executive->task[block].core = CORE_GIVEN_BACK;
    serve_core_queue(executive, level);
}
