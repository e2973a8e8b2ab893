/* The tables of the executive, and one call on them. */
#ifndef EXECUTIVE_H
#define EXECUTIVE_H

#include "call.h"
#include "image.h"
#include "queue.h"

/* "Task blocks 1 to 24. Request blocks 1 to 16. Zero names no block. Events
   0 to 63". The clock ends at 4,294,967,295. */
enum {
    TASKS = 24,
    REQUESTS = 16,
    EVENTS = 64,
    DEVICES = 250,
    BYTE_COUNT_MOST = 65535
};
#define CLOCK_END UINT32_MAX

/* "A task block is in one of these places" */
enum task_place {
    TASK_FREE,
    RUNNING,
    READY,
    WAITS_FOR_CORE,
    WAITS_FOR_EVENTS,
    WAITS_FOR_TIME,
    IN_LINK,
    IN_CHECK,
    ENDING
};

/* "A request block is free, queued, on the channel or done." */
enum request_place {
    REQUEST_FREE,
    QUEUED,
    ON_CHANNEL,
    DONE
};

/* "none granted yet", a run held, or a run given back: "it isn't granted
   again". */
enum core {
    CORE_NONE_YET,
    CORE_HELD,
    CORE_GIVEN_BACK
};

/* Which start a grant takes: document 01's "lowest start at which enough are
   free", or document 02's "start of the shortest unbroken free run that is long
   enough" (E8). */
enum holes {
    LOWEST_START,
    SMALLEST_HOLE
};

/* A task block. Count and set belong to the event queue, time to the time
   queue, awaited to CHECK. `since` is document 02's "clock reading at which it
   last entered any waiting queue" (E6); task_put alone sets it, and the
   place. */
struct task {
    uint8_t place;
    uint8_t module;
    uint8_t parent;
    uint8_t core;
    uint8_t count;
    uint8_t awaited;
    uint32_t time;
    uint32_t since;
    uint64_t set;
};

/* A request block. The command is the code that made it. */
struct request {
    uint8_t place;
    uint8_t owner;
    uint8_t device;
    uint8_t command;
    uint32_t byte_count;
};

/* All tables. Blocks count from 1 and levels from 1; index 0 stays zero.
   `signalled` are the events "signalled on or off since the load" (document 02,
   E1). `holder` names for each unit of a level the task that holds it. `holes`
   is the rule of the grants; the load sets it, and no call changes it. */
struct executive {
    struct directory directory;
    uint64_t on;
    uint64_t signalled;
    uint32_t clock;
    uint8_t running;
    uint8_t channel;
    struct task task[TASKS + 1];
    struct request request[REQUESTS + 1];
    uint8_t holder[LEVELS + 1][UNITS];
    struct queue ready[LEVELS + 1];
    struct queue core_queue[LEVELS + 1];
    struct queue event_queue;
    struct queue time_queue;
    struct queue channel_queue;
    uint64_t holes;
};

/* "An answer has three numbers: refusal (0 if accepted), result, running
   task afterwards (0 if idle)." */
struct answer {
    int refusal;
    int result;
    int running;
};

/* "A fixed table over the codes 0 to 35 says whether a code is known and
   whether it needs a running task." A code without a name isn't known. */
struct code {
    const char *name;
    int needs_running;
    int (*act)(struct executive *executive, const struct call *call);
};
extern const struct code code_table[CODES];

/* executive.c */
struct answer executive_load(struct executive *executive,
                             const uint8_t *bytes, size_t length);
struct answer executive_load_lowest(struct executive *executive,
                                    const uint8_t *bytes, size_t length);
struct answer executive_act(struct executive *executive,
                            const uint8_t *bytes, size_t length);
void executive_dispatch(struct executive *executive);
struct answer executive_step(struct executive *executive,
                             const uint8_t *bytes, size_t length);

/* tasks.c */
const struct module *task_module(const struct executive *executive, int block);
int task_level(const struct executive *executive, int block);
int task_lowest_free(const struct executive *executive);
int task_new(struct executive *executive, int module);
int place_waits(int place);
void task_put(struct executive *executive, int block, int place);
void task_stop_running(struct executive *executive, int place);
int best_ready_level(const struct executive *executive);

/* core.c. A witness sees each grant before it is made: the tables as they are,
   the block and the start. NULL if there is none. */
typedef void grant_witness(const struct executive *executive, int block,
                           int start);
extern grant_witness *witness_of_grants;
int still_needs_core(const struct executive *executive, int block);
void make_ready(struct executive *executive, int block);
void free_core(struct executive *executive, int block);

/* conditions.c */
int count_ones(uint64_t set);
int events_hold(const struct executive *executive, uint64_t set, int count);
int condition_holds(const struct executive *executive, const struct call *call);
void join_waiting(struct executive *executive, int block,
                  const struct call *call);
void wake_event_waiters(struct executive *executive);
void wake_time_waiters(struct executive *executive);

/* requests.c */
int request_lowest_free(const struct executive *executive);
int request_is_pending(const struct request *request);
int has_pending(const struct executive *executive, int block);
void request_free(struct executive *executive, int number);
int request_new(struct executive *executive, const struct call *call);
int channel_leave(struct executive *executive);
void channel_take_next(struct executive *executive);

/* ending.c */
void finish(struct executive *executive, int block);
void end_or_wait(struct executive *executive, int block);
void abort_upward(struct executive *executive, int block);

/* refusals.c */
int call_refusal(const struct executive *executive, const struct call *call,
                 size_t length);

#endif
