/* I/O request blocks and the channel. */
#include "executive.h"

#include <string.h>

/* "always the lowest-numbered free one"; 0 if "all 16 request blocks in
   use" */
int request_lowest_free(const struct executive *executive)
{
    for (int number = 1; number <= REQUESTS; number++) {
        if (executive->request[number].place == REQUEST_FREE) {
            return number;
        }
    }
    return 0;
}

/* "requests queued or on the channel" */
int request_is_pending(const struct request *request)
{
    return request->place == QUEUED || request->place == ON_CHANNEL;
}

/* "if it has pending requests" */
int has_pending(const struct executive *executive, int block)
{
    for (int number = 1; number <= REQUESTS; number++) {
        const struct request *request = &executive->request[number];
        if (request->owner == block && request_is_pending(request)) {
            return 1;
        }
    }
    return 0;
}

/* "A free block [...] is zero." */
void request_free(struct executive *executive, int number)
{
    memset(&executive->request[number], 0, sizeof executive->request[number]);
}

/* The level by which a request is queued: its owner's. */
static int request_level(const struct executive *executive, int number)
{
    return task_level(executive, executive->request[number].owner);
}

/* "enter the channel queue by the caller's level, then arrival" */
static void join_channel_queue(struct executive *executive, int number)
{
    struct queue *queue = &executive->channel_queue;
    int level = request_level(executive, number);
    int at = 0;
    while (at < queue->count
           && request_level(executive, queue->block[at]) <= level) {
        at++;
    }
    executive->request[number].place = QUEUED;
    queue_insert(queue, at, number);
}

/* "An empty channel takes the first at once; one on the channel isn't
   displaced." */
void channel_take_next(struct executive *executive)
{
    if (executive->channel == 0 && executive->channel_queue.count > 0) {
        int number = queue_take(&executive->channel_queue, 0);
        executive->request[number].place = ON_CHANNEL;
        executive->channel = (uint8_t)number;
    }
}

/* "READ, WRITE enter the channel queue [...]. An empty channel takes the
   first at once". The answer is the request block. */
int request_new(struct executive *executive, const struct call *call)
{
    int number = request_lowest_free(executive);
    struct request *request = &executive->request[number];
    request->owner = executive->running;
    request->device = call->number;
    request->command = call->code;
    request->byte_count = call->amount;
    join_channel_queue(executive, number);
    channel_take_next(executive);
    return number;
}

/* "the request leaves the channel": it is in no place until the caller gives
   it one. */
int channel_leave(struct executive *executive)
{
    int number = executive->channel;
    executive->channel = 0;
    executive->request[number].place = REQUEST_FREE;
    return number;
}
