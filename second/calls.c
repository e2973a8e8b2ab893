/* What each call does. Each function answers the result of the accepted
   call. "Accepted results: 5, 7, 35 the task block; 13, 14 the request block;
   10 gives 1 for off, 2 for on; all others 1." Document 02's E1 adds 3 to the
   answers of 10. */
#include "executive.h"

/* "FREEMAIN frees the caller's run, if any; it isn't granted again." */
static int act_freemain(struct executive *executive, const struct call *call)
{
    (void)call;
    free_core(executive, executive->running);
    return 1;
}

/* "LINK makes a child and the caller waits for it." */
static int act_link(struct executive *executive, const struct call *call)
{
    int child = task_new(executive, call->number);
    executive->task[child].parent = executive->running;
    task_stop_running(executive, IN_LINK);
    make_ready(executive, child);
    return child;
}

/* "END: a caller with requests queued or on the channel waits as ending and
   keeps its core; otherwise it finishes." */
static int act_end(struct executive *executive, const struct call *call)
{
    int caller = executive->running;
    (void)call;
    executive->running = 0;
    end_or_wait(executive, caller);
    return 1;
}

/* SCHEDULE: "A condition that holds at the call doesn't wait [...]. Otherwise
   the task joins the event queue [...] or the time queue". */
static int act_schedule(struct executive *executive, const struct call *call)
{
    int block = task_new(executive, call->number);
    if (condition_holds(executive, call)) {
        make_ready(executive, block);
    } else {
        join_waiting(executive, block, call);
    }
    return block;
}

/* "A condition that holds at the call doesn't wait: WAIT then goes on
   running." */
static int act_wait(struct executive *executive, const struct call *call)
{
    if (!condition_holds(executive, call)) {
        int caller = executive->running;
        executive->running = 0;
        join_waiting(executive, caller, call);
    }
    return 1;
}

/* "SIGNAL on, then the event queue is walked [...]. Off wakes nobody." Either
   way the event is "signalled on or off" from now on (document 02, E1). */
static int act_signal(struct executive *executive, const struct call *call)
{
    uint64_t event = (uint64_t)1 << call->number;
    executive->signalled |= event;
    if (call->value == 1) {
        executive->on |= event;
        wake_event_waiters(executive);
    } else {
        executive->on &= ~event;
    }
    return 1;
}

/* "10 gives 1 for off, 2 for on". Document 02, E1: "TEST EVENT has to answer 3
   for a defined event that hasn't been signalled on or off since the load." */
static int act_test_event(struct executive *executive, const struct call *call)
{
    if (((executive->signalled >> call->number) & 1) == 0) {
        return 3;
    }
    return ((executive->on >> call->number) & 1) != 0 ? 2 : 1;
}

/* "DISPATCH CHECK: if a strictly better level is ready, the caller goes to the
   front of its own ready level and stops running." */
static int act_dispatch_check(struct executive *executive,
                              const struct call *call)
{
    int caller = executive->running;
    int level = task_level(executive, caller);
    int best = best_ready_level(executive);
    (void)call;
    if (best != 0 && best < level) {
        task_stop_running(executive, READY);
        queue_insert(&executive->ready[level], 0, caller);
    }
    return 1;
}

/* "READ, WRITE enter the channel queue by the caller's level, then
   arrival." */
static int act_read_or_write(struct executive *executive,
                             const struct call *call)
{
    return request_new(executive, call);
}

/* "CHECK: done request, block freed, go on; pending one, wait for it." */
static int act_check(struct executive *executive, const struct call *call)
{
    if (executive->request[call->number].place == DONE) {
        request_free(executive, call->number);
    } else {
        executive->task[executive->running].awaited = call->number;
        task_stop_running(executive, IN_CHECK);
    }
    return 1;
}

/* "Timer: clock plus 1; if N divides the new clock, every task on the time
   queue whose time is at most the clock is made ready". */
static int act_timer(struct executive *executive, const struct call *call)
{
    (void)call;
    executive->clock++;
    if (executive->clock % executive->directory.every == 0) {
        wake_time_waiters(executive);
    }
    return 1;
}

/* "If its owner waits on it in CHECK, its block is freed and the owner made
   ready; if its owner is ending and this was its last pending one, its block
   is freed and the owner finishes; otherwise it is marked done. Then the next
   request goes on the channel." */
static int act_io_done(struct executive *executive, const struct call *call)
{
    int number = channel_leave(executive);
    int owner = executive->request[number].owner;
    const struct task *task = &executive->task[owner];
    (void)call;
    if (task->place == IN_CHECK && task->awaited == number) {
        request_free(executive, number);
        make_ready(executive, owner);
    } else if (task->place == ENDING && !has_pending(executive, owner)) {
        request_free(executive, number);
        finish(executive, owner);
    } else {
        executive->request[number].place = DONE;
    }
    channel_take_next(executive);
    return 1;
}

/* "Program check aborts the running task." */
static int act_program_check(struct executive *executive,
                             const struct call *call)
{
    int caller = executive->running;
    (void)call;
    executive->running = 0;
    abort_upward(executive, caller);
    return 1;
}

/* Operator start: "Kind 0 holds at once (LINK and start always use it)." */
static int act_operator_start(struct executive *executive,
                              const struct call *call)
{
    int block = task_new(executive, call->number);
    make_ready(executive, block);
    return block;
}

/* "Service calls need a running task: [...]. Interrupts: 32 timer, 33 I/O
   done, 34 program check (needs a running task), 35 operator start." */
const struct code code_table[CODES] = {
    [FREEMAIN] = {"freemain", 1, act_freemain},
    [LINK] = {"link", 1, act_link},
    [END] = {"end", 1, act_end},
    [SCHEDULE] = {"schedule", 1, act_schedule},
    [WAIT] = {"wait", 1, act_wait},
    [SIGNAL] = {"signal", 1, act_signal},
    [TEST_EVENT] = {"test", 1, act_test_event},
    [DISPATCH_CHECK] = {"dispatch-check", 1, act_dispatch_check},
    [READ] = {"read", 1, act_read_or_write},
    [WRITE] = {"write", 1, act_read_or_write},
    [CHECK] = {"check", 1, act_check},
    [TIMER] = {"timer", 0, act_timer},
    [IO_DONE] = {"io-done", 0, act_io_done},
    [PROGRAM_CHECK] = {"program-check", 1, act_program_check},
    [OPERATOR_START] = {"start", 0, act_operator_start},
};
