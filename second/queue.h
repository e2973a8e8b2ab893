/* A queue of blocks: a plain array of block numbers, the front first.
   What lies behind the last one is zero. */
#ifndef QUEUE_H
#define QUEUE_H

#include <stdint.h>

enum { QUEUE_ROOM = 24 };

struct queue {
    uint8_t count;
    uint8_t block[QUEUE_ROOM];
};

void queue_insert(struct queue *queue, int at, int block);
void queue_join_end(struct queue *queue, int block);
int queue_take(struct queue *queue, int at);

#endif
