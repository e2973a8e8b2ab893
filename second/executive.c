/* Loading, and one call. */
#include "executive.h"

#include <string.h>

/* "A loaded state has no tasks, all events off, clock 0." No event has been
   signalled "since the load" (document 02, E1). A refused load leaves
   "all-zero tables". The answer is the desk's line for the load: "(refusal, M
   or 0, 0)". */
static struct answer load(struct executive *executive, const uint8_t *bytes,
                          size_t length, enum holes holes)
{
    struct answer answer = {0, 0, 0};
    memset(executive, 0, sizeof *executive);
    answer.refusal = image_load(&executive->directory, bytes, length);
    answer.result = executive->directory.modules;
    if (answer.refusal == 0) {
        executive->holes = holes;
    }
    return answer;
}

/* Document 02, E8: "Smallest hole first." */
struct answer executive_load(struct executive *executive,
                             const uint8_t *bytes, size_t length)
{
    return load(executive, bytes, length, SMALLEST_HOLE);
}

/* Document 02, E8: "the old program for recordings made before this". */
struct answer executive_load_lowest(struct executive *executive,
                                    const uint8_t *bytes, size_t length)
{
    return load(executive, bytes, length, LOWEST_START);
}

/* All of a call but its last act, the dispatch. "A refused call has result 0,
   leaves every table as it found it, and names the running task unchanged (0
   with refusal 9)." */
struct answer executive_act(struct executive *executive,
                            const uint8_t *bytes, size_t length)
{
    struct answer answer = {0, 0, 0};
    struct call call = {0, 0, 0, 0, 0, 0};
    if (length == CALL_LENGTH) {
        call_get(&call, bytes);
    }
    answer.refusal = call_refusal(executive, &call, length);
    if (answer.refusal == 0) {
        answer.result = code_table[call.code].act(executive, &call);
    }
    if (answer.refusal != 9) {
        answer.running = executive->running;
    }
    return answer;
}

/* "Every accepted call ends so: if no task runs, the first of the best
   non-empty level is dispatched." */
void executive_dispatch(struct executive *executive)
{
    int level = best_ready_level(executive);
    if (executive->running == 0 && level != 0) {
        int block = queue_take(&executive->ready[level], 0);
        task_put(executive, block, RUNNING);
        executive->running = (uint8_t)block;
    }
}

/* One call. */
struct answer executive_step(struct executive *executive,
                             const uint8_t *bytes, size_t length)
{
    struct answer answer = executive_act(executive, bytes, length);
    if (answer.refusal == 0) {
        executive_dispatch(executive);
        answer.running = executive->running;
    }
    return answer;
}
