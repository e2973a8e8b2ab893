/* Calls aimed at a refusal, most of them right behind its border. Some need
   tables that aren't there now; the call then does something else. */
#include "moves.h"

/* One of the numbers given. C leaves open which argument of a call is worked
   out first, so where several are drawn each is drawn before the call, the last
   one first. */
static uint32_t one_of(struct random *random, uint32_t first, uint32_t second,
                       uint32_t third)
{
    unsigned which = random_below(random, 3);
    return which == 0 ? first : which == 1 ? second : third;
}

/* 24: "code not listed above" */
static void unknown_code(struct random *random, struct call *call)
{
    do {
        uint32_t third = random_below(random, 256);
        uint32_t second = CODES + random_below(random, 2);
        uint32_t first = random_below(random, CODES);
        call->code = (uint8_t)one_of(random, first, second, third);
    } while (call->code < CODES && code_table[call->code].name != NULL);
}

/* 25: FREEMAIN "while any of the caller's requests is queued or on the
   channel"; accepted if all of them are done */
static int freemain_with_request(const struct executive *executive,
                                 struct call *call)
{
    int held = 0;
    for (int number = 1; number <= REQUESTS; number++) {
        held |= executive->request[number].owner == executive->running;
    }
    call->code = FREEMAIN;
    return held;
}

/* 12: "module number M or more (5, 7, 35)"; 16 if it is less and the table is
   full */
static void some_maker(const struct executive *executive,
                       struct random *random, struct call *call, int good)
{
    unsigned modules = executive->directory.modules;
    call->code = (uint8_t)one_of(random, LINK, SCHEDULE, OPERATOR_START);
    call->number = (uint8_t)(good ? random_below(random, modules)
        : one_of(random, modules, modules + random_below(random, 200), 255));
}

/* 19: "event undefined or above 63 (9, 10)" */
static void bad_event(const struct executive *executive, struct random *random,
                      struct call *call)
{
    unsigned event = 0;
    while (event < EVENTS
           && (((executive->directory.events >> event) & 1) != 0
               || random_one_in(random, 4))) {
        event++;
    }
    call->code = random_one_in(random, 2) ? SIGNAL : TEST_EVENT;
    call->number = (uint8_t)one_of(random, event, EVENTS,
                                   EVENTS + random_below(random, 192));
    call->value = (uint8_t)random_below(random, 3);
}

/* 22 and 23: "device above 249", "byte count 0 or above 65,535 (13, 14)" */
static void bad_transfer(struct random *random, struct call *call)
{
    call->code = random_one_in(random, 2) ? READ : WRITE;
    call->number = (uint8_t)one_of(random, DEVICES - 1, DEVICES,
                                   DEVICES + random_below(random, 6));
    uint32_t third = random_one_in(random, 2) ? UINT32_MAX : 1;
    uint32_t first = BYTE_COUNT_MOST + random_below(random, 2);
    call->amount = one_of(random, first, 0, third);
}

/* 23: "SIGNAL value not 0 or 1" */
static void bad_signal(const struct executive *executive,
                       struct random *random, struct call *call)
{
    call->code = SIGNAL;
    for (int event = 0; event < EVENTS; event++) {
        if (((executive->directory.events >> event) & 1) != 0) {
            call->number = (uint8_t)event;
        }
    }
    call->value = (uint8_t)one_of(random, 2, 255, 1);
}

/* 18: "request block not held by the caller (15)" */
static void bad_check(struct random *random, struct call *call)
{
    call->code = CHECK;
    call->number = (uint8_t)one_of(random, random_below(random, REQUESTS + 2),
                                   0, REQUESTS + 1);
}

/* 13 and 14: "kind not 0 to 3, or 0 for WAIT; or kind 1 with an undefined
   event in the set", "kind 1, count 0 or more than the number of events" */
static void bad_condition(const struct executive *executive,
                          struct random *random, struct call *call)
{
    call->code = random_one_in(random, 2) ? SCHEDULE : WAIT;
    call->number = (uint8_t)random_below(random, executive->directory.modules);
    call->kind = (uint8_t)one_of(random, ON_EVENTS, ON_EVENTS,
                                 AFTER_INTERVAL + random_below(random, 3));
    if (random_one_in(random, 6)) {
        call->kind = AT_ONCE;
    }
    call->set = random_one_in(random, 6) ? 0 : some_events(executive, random);
    call->value = (uint8_t)one_of(random, (uint32_t)count_ones(call->set) + 1,
                                  0, (uint32_t)count_ones(call->set));
    if (random_one_in(random, 3)) {
        call->set |= (uint64_t)1 << random_below(random, EVENTS);
    }
}

/* 15: "kind 3, clock plus interval passes the clock's end (7, 8)" */
static void bad_interval(const struct executive *executive,
                         struct random *random, struct call *call)
{
    uint32_t left = CLOCK_END - executive->clock;
    call->code = random_one_in(random, 2) ? SCHEDULE : WAIT;
    call->number = (uint8_t)random_below(random, executive->directory.modules);
    call->kind = AFTER_INTERVAL;
    call->amount = left == CLOCK_END ? CLOCK_END
        : one_of(random, left + 1, left + 1, CLOCK_END);
    if (random_one_in(random, 20)) {
        call->amount = left;
    }
}

/* 11: a service call while nobody runs */
static void some_service(struct random *random, struct call *call)
{
    do {
        call->code = (uint8_t)random_below(random, CODES);
    } while (!code_table[call->code].needs_running);
}

/* One of the refusals that calls can reach; 0 if this one can't now. */
int aim_at_refusal(const struct executive *executive, struct random *random,
                   struct call *call)
{
    if (executive->running == 0) {
        if (random_one_in(random, 2)) {
            some_service(random, call);
            return 1;
        }
        call->code = IO_DONE;
        return executive->channel == 0;
    }
    switch (random_below(random, 12)) {
    case 0: unknown_code(random, call); break;
    case 1: some_maker(executive, random, call, 0); break;
    case 2: bad_event(executive, random, call); break;
    case 3: bad_transfer(random, call); break;
    case 4: bad_signal(executive, random, call); break;
    case 5: bad_check(random, call); break;
    case 6:
    case 7: bad_condition(executive, random, call); break;
    case 8: bad_interval(executive, random, call); break;
    case 9:
        some_maker(executive, random, call, 1);
        return task_lowest_free(executive) == 0;
    case 10: return freemain_with_request(executive, call);
    default:
        call->code = IO_DONE;
        return executive->channel == 0;
    }
    return 1;
}
