/* How a task ends: finishing, waiting as ending, abort. */
#include "executive.h"

#include <string.h>

/* "free its done requests" */
static void free_done_requests(struct executive *executive, int block)
{
    for (int number = 1; number <= REQUESTS; number++) {
        const struct request *request = &executive->request[number];
        if (request->owner == block && request->place == DONE) {
            request_free(executive, number);
        }
    }
}

/* "Finishing: free the run and serve that core queue; free its done requests;
   make a waiting parent ready; free the block." */
void finish(struct executive *executive, int block)
{
    struct task *task = &executive->task[block];
    free_core(executive, block);
    free_done_requests(executive, block);
    if (task->parent != 0) {
        make_ready(executive, task->parent);
    }
    memset(task, 0, sizeof *task);
    task_put(executive, block, TASK_FREE);
}

/* "a caller with requests queued or on the channel waits as ending and keeps
   its core; otherwise it finishes" */
void end_or_wait(struct executive *executive, int block)
{
    if (has_pending(executive, block)) {
        task_put(executive, block, ENDING);
    } else {
        finish(executive, block);
    }
}

/* "Child first, then its parent, and so on upward: each loses its link and
   finishes, or waits as ending if it has pending requests. Each step is
   complete before the next." */
void abort_upward(struct executive *executive, int block)
{
    while (block != 0) {
        int parent = executive->task[block].parent;
        executive->task[block].parent = 0;
        end_or_wait(executive, block);
        block = parent;
    }
}
