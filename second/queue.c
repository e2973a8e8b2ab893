/* Entering a queue and leaving it. */
#include "queue.h"

/* "goes to the front of its own ready level", and every other place in a
   queue: those from `at` on move one place back. */
void queue_insert(struct queue *queue, int at, int block)
{
    for (int i = queue->count; i > at; i--) {
        queue->block[i] = queue->block[i - 1];
    }
    queue->block[at] = (uint8_t)block;
    queue->count++;
}

/* "goes to the end of its level's ready queue" */
void queue_join_end(struct queue *queue, int block)
{
    queue_insert(queue, queue->count, block);
}

/* Leaving a queue: those behind `at` move one place forward. */
int queue_take(struct queue *queue, int at)
{
    int block = queue->block[at];
    queue->count--;
    for (int i = at; i < queue->count; i++) {
        queue->block[i] = queue->block[i + 1];
    }
    queue->block[queue->count] = 0;
    return block;
}
