/* Task blocks: their level, a new one, the place of one, and the one that
   runs. */
#include "executive.h"

/* A task is one of its module: "level, core units" are the module's. */
const struct module *task_module(const struct executive *executive, int block)
{
    return &executive->directory.module[executive->task[block].module];
}

/* The level of a task is its module's. */
int task_level(const struct executive *executive, int block)
{
    return task_module(executive, block)->level;
}

/* "always the lowest-numbered free one"; 0 if "all 24 task blocks in use" */
int task_lowest_free(const struct executive *executive)
{
    for (int block = 1; block <= TASKS; block++) {
        if (executive->task[block].place == TASK_FREE) {
            return block;
        }
    }
    return 0;
}

/* "A freed block is used again: always the lowest-numbered free one." The
   caller puts the new task in its place before the call is over. */
int task_new(struct executive *executive, int module)
{
    int block = task_lowest_free(executive);
    executive->task[block].module = (uint8_t)module;
    return block;
}

/* Document 02, E6: "any waiting queue, core, LINK, CHECK and ending too". The
   others are "free, ready or running". */
int place_waits(int place)
{
    return place == WAITS_FOR_EVENTS
        || place == WAITS_FOR_TIME
        || place == WAITS_FOR_CORE
        || place == IN_LINK
        || place == IN_CHECK
        || place == ENDING;
}

/* Whoever goes to another place goes there by this. Document 02, E6: "Every
   task block gets the clock reading at which it last entered any waiting queue
   [...], and 0 while free, ready or running. Moving between waiting queues sets
   it anew." */
void task_put(struct executive *executive, int block, int place)
{
    struct task *task = &executive->task[block];
    task->place = (uint8_t)place;
    task->since = place_waits(place) ? executive->clock : 0;
}

/* The running task goes to another place and the processor has none. */
void task_stop_running(struct executive *executive, int place)
{
    task_put(executive, executive->running, place);
    executive->running = 0;
}

/* "the best non-empty level"; 0 if nothing is ready. "Levels 1 (best) to
   3." */
int best_ready_level(const struct executive *executive)
{
    for (int level = 1; level <= LEVELS; level++) {
        if (executive->ready[level].count > 0) {
            return level;
        }
    }
    return 0;
}
