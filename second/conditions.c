/* Conditions, and the event and time queues. */
#include "executive.h"

/* "the number of events in the set" */
int count_ones(uint64_t set)
{
    int ones = 0;
    for (int event = 0; event < EVENTS; event++) {
        ones += (int)((set >> event) & 1);
    }
    return ones;
}

/* "Kind 1 holds if at least `value` events of the set are on." */
int events_hold(const struct executive *executive, uint64_t set, int count)
{
    return count_ones(set & executive->on) >= count;
}

/* "Kind 2 holds if the amount is at most the clock. Kind 3 is kind 2 at clock
   plus amount." The time that the task waits for; refusal 15 is past. */
static uint32_t time_of(const struct executive *executive,
                        const struct call *call)
{
    if (call->kind == AFTER_INTERVAL) {
        return executive->clock + call->amount;
    }
    return call->amount;
}

/* "Kind 0 holds at once (LINK and start always use it)." The others as said
   above. */
int condition_holds(const struct executive *executive, const struct call *call)
{
    if (call->kind == AT_ONCE) {
        return 1;
    }
    if (call->kind == ON_EVENTS) {
        return events_hold(executive, call->set, call->value);
    }
    return time_of(executive, call) <= executive->clock;
}

/* "the time queue, by time and then arrival" */
static void join_time_queue(struct executive *executive, int block)
{
    struct queue *queue = &executive->time_queue;
    uint32_t time = executive->task[block].time;
    int at = 0;
    while (at < queue->count
           && executive->task[queue->block[at]].time <= time) {
        at++;
    }
    queue_insert(queue, at, block);
}

/* "Otherwise the task joins the event queue, by arrival, or the time queue,
   by time and then arrival." */
void join_waiting(struct executive *executive, int block,
                  const struct call *call)
{
    struct task *task = &executive->task[block];
    if (call->kind == ON_EVENTS) {
        task_put(executive, block, WAITS_FOR_EVENTS);
        task->count = call->value;
        task->set = call->set;
        queue_join_end(&executive->event_queue, block);
    } else {
        task_put(executive, block, WAITS_FOR_TIME);
        task->time = time_of(executive, call);
        join_time_queue(executive, block);
    }
}

/* "the event queue is walked front to back and each task whose condition
   holds is made ready" */
void wake_event_waiters(struct executive *executive)
{
    struct queue *queue = &executive->event_queue;
    int at = 0;
    while (at < queue->count) {
        const struct task *task = &executive->task[queue->block[at]];
        if (events_hold(executive, task->set, task->count)) {
            make_ready(executive, queue_take(queue, at));
        } else {
            at++;
        }
    }
}

/* "every task on the time queue whose time is at most the clock is made
   ready, in queue order" */
void wake_time_waiters(struct executive *executive)
{
    struct queue *queue = &executive->time_queue;
    int at = 0;
    while (at < queue->count) {
        const struct task *task = &executive->task[queue->block[at]];
        if (task->time <= executive->clock) {
            make_ready(executive, queue_take(queue, at));
        } else {
            at++;
        }
    }
}
