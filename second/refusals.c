/* The refusals of a call: one table, and "The first that applies in the
   table's order is given." */
#include "executive.h"
#include "rules.h"

/* What a test looks at. With a length that isn't 16 the call is all zero. */
struct asked {
    const struct executive *executive;
    const struct call *call;
    size_t length;
};

/* "(5, 7, 35)" */
static int makes_task(const struct asked *asked)
{
    int code = asked->call->code;
    return code == LINK || code == SCHEDULE || code == OPERATOR_START;
}

/* "(13, 14)" */
static int makes_request(const struct asked *asked)
{
    return asked->call->code == READ || asked->call->code == WRITE;
}

/* "(7, 8)", and of that kind */
static int has_kind(const struct asked *asked, int kind)
{
    const struct call *call = asked->call;
    return (call->code == SCHEDULE || call->code == WAIT) && call->kind == kind;
}

/* "the tables handed in break the table rules below" */
static int tables_break_rules(const struct asked *asked)
{
    return rules_broken(asked->executive) != NULL;
}

/* "not 16 bytes" */
static int not_16_bytes(const struct asked *asked)
{
    return asked->length != CALL_LENGTH;
}

/* "code not listed above" */
static int code_not_listed(const struct asked *asked)
{
    int code = asked->call->code;
    return code >= CODES || code_table[code].name == NULL;
}

/* "a running task is needed and none is" */
static int nobody_runs(const struct asked *asked)
{
    return code_table[asked->call->code].needs_running
        && asked->executive->running == 0;
}

/* Document 02, E4: "Refuse FREEMAIN while any of the caller's requests is
   queued or on the channel. Done requests don't matter, nor whether it has
   core." */
static int frees_under_request(const struct asked *asked)
{
    return asked->call->code == FREEMAIN
        && has_pending(asked->executive, asked->executive->running);
}

/* "module number M or more (5, 7, 35)" */
static int no_such_module(const struct asked *asked)
{
    return makes_task(asked)
        && asked->call->number >= asked->executive->directory.modules;
}

/* "event undefined or above 63 (9, 10)" */
static int no_such_event(const struct asked *asked)
{
    const struct call *call = asked->call;
    if (call->code != SIGNAL && call->code != TEST_EVENT) {
        return 0;
    }
    return call->number >= EVENTS
        || ((asked->executive->directory.events >> call->number) & 1) == 0;
}

/* "device above 249 (13, 14)" */
static int no_such_device(const struct asked *asked)
{
    return makes_request(asked) && asked->call->number >= DEVICES;
}

/* "byte count 0 or above 65,535 (13, 14); SIGNAL value not 0 or 1" */
static int bad_byte_count_or_value(const struct asked *asked)
{
    const struct call *call = asked->call;
    if (call->code == SIGNAL) {
        return call->value > 1;
    }
    return makes_request(asked)
        && (call->amount == 0 || call->amount > BYTE_COUNT_MOST);
}

/* "request block not held by the caller (15)" */
static int not_own_request(const struct asked *asked)
{
    const struct executive *executive = asked->executive;
    int number = asked->call->number;
    if (asked->call->code != CHECK) {
        return 0;
    }
    return number < 1 || number > REQUESTS
        || executive->request[number].owner != executive->running;
}

/* "kind not 0 to 3, or 0 for WAIT; or kind 1 with an undefined event in the
   set (7, 8)" */
static int bad_kind(const struct asked *asked)
{
    const struct call *call = asked->call;
    if (call->code != SCHEDULE && call->code != WAIT) {
        return 0;
    }
    if (call->kind > AFTER_INTERVAL) {
        return 1;
    }
    if (call->kind == AT_ONCE) {
        return call->code == WAIT;
    }
    return call->kind == ON_EVENTS
        && (call->set & ~asked->executive->directory.events) != 0;
}

/* "kind 1, count 0 or more than the number of events in the set (7, 8)" */
static int bad_count(const struct asked *asked)
{
    const struct call *call = asked->call;
    return has_kind(asked, ON_EVENTS)
        && (call->value == 0 || call->value > count_ones(call->set));
}

/* "kind 3, clock plus interval passes the clock's end (7, 8)" */
static int passes_clock_end(const struct asked *asked)
{
    return has_kind(asked, AFTER_INTERVAL)
        && asked->call->amount > CLOCK_END - asked->executive->clock;
}

/* "all 24 task blocks in use (5, 7, 35)" */
static int no_task_block(const struct asked *asked)
{
    return makes_task(asked) && task_lowest_free(asked->executive) == 0;
}

/* "all 16 request blocks in use (13, 14)" */
static int no_request_block(const struct asked *asked)
{
    return makes_request(asked) && request_lowest_free(asked->executive) == 0;
}

/* "nothing on the channel (33)" */
static int nothing_on_channel(const struct asked *asked)
{
    return asked->call->code == IO_DONE && asked->executive->channel == 0;
}

/* "clock at its end (32)" */
static int clock_at_end(const struct asked *asked)
{
    return asked->call->code == TIMER && asked->executive->clock == CLOCK_END;
}

/* The table, in document 01's order; document 02 puts 25 "directly after
   11". */
static const struct {
    int number;
    int (*applies)(const struct asked *asked);
} refusal_table[] = {
    {9, tables_break_rules},
    {10, not_16_bytes},
    {24, code_not_listed},
    {11, nobody_runs},
    {25, frees_under_request},
    {12, no_such_module},
    {19, no_such_event},
    {22, no_such_device},
    {23, bad_byte_count_or_value},
    {18, not_own_request},
    {13, bad_kind},
    {14, bad_count},
    {15, passes_clock_end},
    {16, no_task_block},
    {17, no_request_block},
    {20, nothing_on_channel},
    {21, clock_at_end},
};

/* "The first that applies in the table's order is given"; 0 if none does. */
int call_refusal(const struct executive *executive, const struct call *call,
                 size_t length)
{
    struct asked asked = {executive, call, length};
    size_t rows = sizeof refusal_table / sizeof refusal_table[0];
    for (size_t row = 0; row < rows; row++) {
        if (refusal_table[row].applies(&asked)) {
            return refusal_table[row].number;
        }
    }
    return 0;
}
