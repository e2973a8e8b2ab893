/* Calls on either side of the line of each row of document 01's table of
   refusals and of document 02's 25, and calls to which two rows apply; the
   answers of TEST EVENT, and what signals an event; the clock readings that
   calls leave; the starts that grants take. The numbers were found by hand, from the papers. */
#include "cases.h"

/* A row: the refusal, 0 if accepted; the tables; the call's code, kind, number,
   value, amount and set. */
#define CALL(refusal, name, on, ...) \
    {refusal, name, on, {__VA_ARGS__}, {NOTHING}, CALL_LENGTH, {NOTHING}, 0}

/* The same at the clock's end; with so many bytes; on tables that break a rule,
   with so many bytes. */
#define AT_THE_END(refusal, name, ...)                                  \
    {refusal, name, USUAL, {__VA_ARGS__}, {SET(clock, CLOCK_END)},      \
     CALL_LENGTH, {NOTHING}, 0}
#define CUT(refusal, name, length, ...) \
    {refusal, name, USUAL, {__VA_ARGS__}, {NOTHING}, length, {NOTHING}, 0}
#define BROKEN(refusal, name, length, ...)                              \
    {refusal, name, USUAL, {__VA_ARGS__}, {SET(running, 25)}, length,   \
     {NOTHING}, 0}

/* An accepted call, and what it leaves in a new block. */
#define NEW_TASK(name, module, how_many, which, when, ...)                 \
    {0, name, USUAL, {__VA_ARGS__}, {NOTHING}, CALL_LENGTH,                \
     {SET(tasks[3].program, module), SET(tasks[3].count, how_many),        \
      SET(tasks[3].events, which), SET(tasks[3].time, when)}, 0}
#define NEW_REQUEST(name, from, what, so_many, ...)                        \
    {0, name, USUAL, {__VA_ARGS__}, {NOTHING}, CALL_LENGTH,                \
     {SET(requests[4].owner, 1), SET(requests[4].device, from),            \
      SET(requests[4].command, what), SET(requests[4].bytes, so_many)}, 0}

/* FREEMAIN on the usual tables, edited, and what it leaves: the core of task 1,
   which runs, and its level's pool. */
#define FREES(refusal, name, core_then, pool_then, ...)                    \
    {refusal, name, USUAL, {FREEMAIN, 0, 0, 0, 0, 0}, {__VA_ARGS__},       \
     CALL_LENGTH, {SET(tasks[1].core, core_then), SET(pools[2], pool_then)}, 0}

/* The events that are on, and those that have been signalled. */
#define EVENTS_ARE(on_now, ever) SET(on, on_now), SET(signalled, ever)

/* TEST EVENT on the usual tables with these events, and its result; it changes
   none of them. */
#define TESTS(answer, name, event, on_now, ever)                           \
    {0, name, USUAL, {TEST_EVENT, 0, event, 0, 0, 0},                      \
     {EVENTS_ARE(on_now, ever)}, CALL_LENGTH, {EVENTS_ARE(on_now, ever)},  \
     answer}

/* SIGNAL on the usual tables with these events, and with which it leaves them.
   So many bytes of a SIGNAL on, refused on other tables, which stay as they
   were. */
#define SIGNALS(refusal, name, event, to, on_now, ever, on_then, ever_then) \
    {refusal, name, USUAL, {SIGNAL, 0, event, to, 0, 0},                   \
     {EVENTS_ARE(on_now, ever)}, CALL_LENGTH,                              \
     {EVENTS_ARE(on_then, ever_then)}, 0}
#define SIGNALS_NOT(refusal, name, from, length, event, on_now, ever)      \
    {refusal, name, from, {SIGNAL, 0, event, 1, 0, 0},                     \
     {EVENTS_ARE(on_now, ever)}, length, {EVENTS_ARE(on_now, ever)}, 0}

/* WAIT for so many of the events 0 and 1 on the usual tables with these events,
   and who runs then: task 1, which goes on, or 2. It signals none. */
#define WAITS(runs, name, how_many, on_now, ever)                          \
    {0, name, USUAL, {WAIT, ON_EVENTS, 0, how_many, 0, EVENTS_0_1},        \
     {EVENTS_ARE(on_now, ever)}, CALL_LENGTH,                              \
     {EVENTS_ARE(on_now, ever), SET(running, runs)}, 0}

/* A call at clock 17, and the clock reading that a block has then. */
#define READING(refusal, name, on, block, reading, ...)                    \
    {refusal, name, on, {__VA_ARGS__}, {SET(clock, 17)}, CALL_LENGTH,      \
     {SET(tasks[block].since, reading)}, 0}

/* A call of that code, number and value on the sample, edited, whose clock is 5,
   and the place and the reading that a block has then. */
#define MOVES(name, block, place_then, reading, code, number, value, ...)  \
    {0, name, SAMPLE, {code, 0, number, value, 0, 0}, {__VA_ARGS__},       \
     CALL_LENGTH, {SET(tasks[block].place, place_then),                    \
                   SET(tasks[block].since, reading)}, 0}

/* In the sample the last request of task 1, which is ending, is on the channel,
   and 3 is queued behind 4 and 5. */
#define LAST_OF_1                                                          \
    SET(requests[2].place, ON_CHANNEL), SET(requests[3].place, QUEUED),    \
    SET(channel, 2), SET(threads.fwd[29], 27), SET(threads.back[27], 29),  \
    SET(threads.back[26], 0), SET(threads.last[8], 27)

/* Task 1 holds 4 units; it has given them back. */
#define HOLDS_CORE                                                         \
    SET(directory.entries[1].units, 4), SET(tasks[1].program, 1),          \
    SET(tasks[1].core, CORE_HELD), SET(pools[2], 0xf)
#define GAVE_CORE_BACK                                                     \
    SET(directory.entries[1].units, 4), SET(tasks[1].program, 1),          \
    SET(tasks[1].core, CORE_GIVEN_BACK)

/* Two tasks hold core of level 2: 1, which runs, 2 units, and 2 46 units. New tasks
   are of module 0. */
#define TWO_RUNS(first, second, granted)                                   \
    SET(directory.entries[1].units, 2), SET(tasks[1].program, 1),          \
    SET(tasks[1].core, CORE_HELD), SET(tasks[1].start, first),             \
    SET(directory.entries[2].units, 46), SET(tasks[2].program, 2),         \
    SET(tasks[2].core, CORE_HELD), SET(tasks[2].start, second),            \
    SET(pools[2], granted)

/* They have 10-11 and 18-63: holes of 10 at 0 and of 6 at 12. They have 8-9 and
   18-63: two holes of 8, at 0 and at 10. They have 10-11 and 12-57: holes of 10 at
   0 and of 6 at 58. */
#define HOLES_10_6 TWO_RUNS(10, 18, UINT64_C(0xfffffffffffc0c00))
#define HOLES_8_8 TWO_RUNS(8, 18, UINT64_C(0xfffffffffffc0300))
#define HOLES_10_6_AT_63 TWO_RUNS(10, 12, UINT64_C(0x03fffffffffffc00))

/* SCHEDULE of a task of so many units by one of the rules: it gets them from
   `begin` on, or it waits. The pool afterwards. */
#define GRANTS(name, by, need, begin, granted, ...)                        \
    {0, name, USUAL, {SCHEDULE, AT_ONCE, 0, 0, 0, 0},                      \
     {SET(holes, by), SET(directory.entries[0].units, need), __VA_ARGS__}, \
     CALL_LENGTH, {SET(tasks[3].core, CORE_HELD), SET(tasks[3].start, begin), \
                   SET(pools[2], granted), SET(holes, by)}, 3}
#define GRANTS_NOT(name, by, need, granted, ...)                           \
    {0, name, USUAL, {SCHEDULE, AT_ONCE, 0, 0, 0, 0},                      \
     {SET(holes, by), SET(directory.entries[0].units, need), __VA_ARGS__}, \
     CALL_LENGTH, {SET(tasks[3].place, WAITS_FOR_CORE),                    \
                   SET(tasks[3].core, CORE_NONE_YET),                      \
                   SET(pools[2], granted), SET(holes, by)}, 3}

/* FREEMAIN by one of the rules: task 1 gives 0 to 29 back, 2 has 30 to 59. The
   tasks 3, of 20 units, and 4, of 4 units, wait for core. 3 gets 0 to 19, and 4 its
   units from `begin` on. */
#define SERVES(name, by, begin, granted)                                   \
    {0, name, USUAL, {FREEMAIN, 0, 0, 0, 0, 0},                            \
     {SET(holes, by), ANOTHERS, SET(directory.entries[0].units, 20),       \
      SET(directory.entries[1].units, 30), SET(directory.entries[2].units, 4), \
      SET(tasks[1].program, 1), SET(tasks[1].core, CORE_HELD),             \
      SET(tasks[2].program, 1), SET(tasks[2].core, CORE_HELD),             \
      SET(tasks[2].start, 30), SET(tasks[3].place, WAITS_FOR_CORE),        \
      SET(tasks[4].place, WAITS_FOR_CORE), SET(tasks[4].program, 2),       \
      SET(threads.first[5], 3), SET(threads.fwd[3], 4),                    \
      SET(threads.back[4], 3), SET(threads.last[5], 4),                    \
      SET(free_tasks, 0x1ffffe0), SET(pools[2], UINT64_C(0x0fffffffffffffff))}, \
     CALL_LENGTH, {SET(tasks[3].start, 0), SET(tasks[4].start, begin),     \
                   SET(pools[2], granted), SET(holes, by)}, 1}

/* The request on the channel, 1, is of task 2; all requests are; task 1's
   request 3 is queued behind it. */
#define ANOTHERS SET(requests[1].owner, 2)
#define ALL_ANOTHERS \
    ANOTHERS, SET(requests[3].owner, 2), SET(requests[16].owner, 2)
#define QUEUED_BEHIND_ANOTHERS                                             \
    ANOTHERS, SET(requests[3].place, QUEUED), SET(threads.first[8], 27),   \
    SET(threads.last[8], 27)

/* Request 1 is done too, and nothing is on the channel. */
#define ALL_DONE SET(requests[1].place, DONE), SET(channel, 0)

#define EVENTS_0_1 0x3
#define EVENTS_0_2 0x5
#define EVENTS_0_63 UINT64_C(0x8000000000000001)
#define EVENTS_1_63 UINT64_C(0x8000000000000002)
#define EVENTS_0_1_63 UINT64_C(0x8000000000000003)
#define EVENT_63 UINT64_C(0x8000000000000000)

const char code_letters[] = "-t---tttttt-tttt"
                            "----------------"
                            "kktk";

const struct refusal_case refusal_cases[] = {

    /* 9 and 10 */
    BROKEN(9, "tables that break a rule", 16, FREEMAIN, 0, 0, 0, 0, 0),
    CUT(10, "15 bytes", 15, FREEMAIN, 0, 0, 0, 0, 0),
    CUT(10, "17 bytes", 17, FREEMAIN, 0, 0, 0, 0, 0),
    CUT(10, "no byte", 0, FREEMAIN, 0, 0, 0, 0, 0),

    /* 24 */
    CALL(24, "code 0", USUAL, 0, 0, 0, 0, 0, 0),
    CALL(0, "FREEMAIN", FULL, FREEMAIN, 0, 0, 0, 0, 0),
    CALL(24, "code 2", USUAL, 2, 0, 0, 0, 0, 0),
    CALL(24, "code 11", USUAL, 11, 0, 0, 0, 0, 0),
    CALL(24, "code 31", USUAL, 31, 0, 0, 0, 0, 0),
    CALL(0, "program check", USUAL, PROGRAM_CHECK, 0, 0, 0, 0, 0),
    CALL(24, "code 36", USUAL, 36, 0, 0, 0, 0, 0),
    CALL(24, "code 255", USUAL, 255, 0, 0, 0, 0, 0),

    /* 11: request 1 is on the channel */
    CALL(11, "no task: FREEMAIN", IDLE, FREEMAIN, 0, 0, 0, 0, 0),
    CALL(11, "no task: program check", IDLE, PROGRAM_CHECK, 0, 0, 0, 0, 0),
    CALL(0, "no task: timer", IDLE, TIMER, 0, 0, 0, 0, 0),
    CALL(0, "no task: start 0", IDLE, OPERATOR_START, 0, 0, 0, 0, 0),

    /* 25: the requests 1, on the channel, and 3 and 16, done, are of task 1,
       which runs; 2, done, is of task 2. Nobody has core. */
    CALL(25, "FREEMAIN, 1 on the channel", USUAL, FREEMAIN, 0, 0, 0, 0, 0),
    FREES(25, "FREEMAIN, 3 queued", CORE_NONE_YET, 0, QUEUED_BEHIND_ANOTHERS),
    FREES(0, "FREEMAIN, all done", CORE_NONE_YET, 0, ALL_DONE),
    FREES(0, "FREEMAIN, 1 another's", CORE_NONE_YET, 0, ANOTHERS),
    FREES(0, "FREEMAIN, all another's", CORE_NONE_YET, 0, ALL_ANOTHERS),
    CALL(0, "FREEMAIN, no request at all", CHAIN, FREEMAIN, 0, 0, 0, 0, 0),

    /* The same; task 1 has core. */
    FREES(25, "core: FREEMAIN, 1 on the channel", CORE_HELD, 0xf, HOLDS_CORE),
    FREES(25, "core: FREEMAIN, 3 queued", CORE_HELD, 0xf,
          HOLDS_CORE, QUEUED_BEHIND_ANOTHERS),
    FREES(0, "core: FREEMAIN, all done", CORE_GIVEN_BACK, 0,
          HOLDS_CORE, ALL_DONE),
    FREES(0, "core: FREEMAIN, 1 another's", CORE_GIVEN_BACK, 0,
          HOLDS_CORE, ANOTHERS),
    FREES(0, "core: FREEMAIN, all another's", CORE_GIVEN_BACK, 0,
          HOLDS_CORE, ALL_ANOTHERS),

    /* The same; it has given its core back. */
    FREES(25, "core given back: FREEMAIN, 1 on the channel", CORE_GIVEN_BACK, 0,
          GAVE_CORE_BACK),
    FREES(25, "core given back: FREEMAIN, 3 queued", CORE_GIVEN_BACK, 0,
          GAVE_CORE_BACK, QUEUED_BEHIND_ANOTHERS),
    FREES(0, "core given back: FREEMAIN, all done", CORE_GIVEN_BACK, 0,
          GAVE_CORE_BACK, ALL_DONE),

    /* END isn't FREEMAIN, nor is program check, which stands above. */
    CALL(0, "END, 1 on the channel", USUAL, END, 0, 0, 0, 0, 0),

    /* 12: M is 3 */
    CALL(0, "LINK 2", USUAL, LINK, 0, 2, 0, 0, 0),
    CALL(12, "LINK 3", USUAL, LINK, 0, 3, 0, 0, 0),
    CALL(0, "SCHEDULE 2", USUAL, SCHEDULE, AT_ONCE, 2, 0, 0, 0),
    CALL(12, "SCHEDULE 3", USUAL, SCHEDULE, AT_ONCE, 3, 0, 0, 0),
    CALL(0, "start 2", USUAL, OPERATOR_START, 0, 2, 0, 0, 0),
    CALL(12, "start 3", USUAL, OPERATOR_START, 0, 3, 0, 0, 0),

    /* 19: the events 0, 1 and 63 are defined */
    CALL(0, "TEST EVENT 1", USUAL, TEST_EVENT, 0, 1, 0, 0, 0),
    CALL(19, "TEST EVENT 2", USUAL, TEST_EVENT, 0, 2, 0, 0, 0),
    CALL(0, "TEST EVENT 63", USUAL, TEST_EVENT, 0, 63, 0, 0, 0),
    CALL(19, "TEST EVENT 64", USUAL, TEST_EVENT, 0, 64, 0, 0, 0),
    CALL(0, "SIGNAL 63 off", USUAL, SIGNAL, 0, 63, 0, 0, 0),
    CALL(19, "SIGNAL 64 off", USUAL, SIGNAL, 0, 64, 0, 0, 0),

    /* Document 02's E1: 3 "for a defined event that hasn't been signalled on or
       off since the load"; 19 comes first, see above */
    TESTS(3, "TEST EVENT 0, never signalled", 0, 0, 0),
    TESTS(1, "TEST EVENT 0, off", 0, 0, 0x1),
    TESTS(2, "TEST EVENT 0, on", 0, 0x1, 0x1),
    TESTS(3, "TEST EVENT 0, the others off", 0, 0, EVENTS_1_63),
    TESTS(3, "TEST EVENT 0, the others on", 0, EVENTS_1_63, EVENTS_1_63),
    TESTS(1, "TEST EVENT 0, off, the others on", 0, EVENTS_1_63, EVENTS_0_1_63),
    TESTS(2, "TEST EVENT 0, on, the others off", 0, 0x1, EVENTS_0_1_63),
    TESTS(3, "TEST EVENT 63, the others on", 63, EVENTS_0_1, EVENTS_0_1),
    TESTS(1, "TEST EVENT 63, off", 63, 0, EVENT_63),
    TESTS(2, "TEST EVENT 63, on", 63, EVENT_63, EVENT_63),

    /* SIGNAL, on or off, of an event that was never signalled, off or on */
    SIGNALS(0, "SIGNAL 0 on, never signalled", 0, 1, 0, 0, 0x1, 0x1),
    SIGNALS(0, "SIGNAL 0 on, off", 0, 1, 0, 0x1, 0x1, 0x1),
    SIGNALS(0, "SIGNAL 0 on, on", 0, 1, 0x1, 0x1, 0x1, 0x1),
    SIGNALS(0, "SIGNAL 0 off, never signalled", 0, 0, 0, 0, 0, 0x1),
    SIGNALS(0, "SIGNAL 0 off, off", 0, 0, 0, 0x1, 0, 0x1),
    SIGNALS(0, "SIGNAL 0 off, on", 0, 0, 0x1, 0x1, 0, 0x1),
    SIGNALS(0, "SIGNAL 63 on, 0 off", 63, 1, 0, 0x1, EVENT_63, EVENTS_0_63),
    SIGNALS(0, "SIGNAL 1 off, 63 on", 1, 0, EVENT_63, EVENT_63,
            EVENT_63, EVENTS_1_63),

    /* A refused one signals nothing. 64 and 66 end in the bits of 0 and 2. */
    SIGNALS(23, "SIGNAL 0 by 2, never signalled", 0, 2, 0, 0, 0, 0),
    SIGNALS(23, "SIGNAL 0 by 255, 63 on", 0, 255, EVENT_63, EVENT_63,
            EVENT_63, EVENT_63),
    SIGNALS(23, "SIGNAL 0 by 2, on", 0, 2, 0x1, 0x1, 0x1, 0x1),
    SIGNALS_NOT(19, "SIGNAL 2 on, not defined", USUAL, CALL_LENGTH, 2, 0, 0x1),
    SIGNALS_NOT(19, "SIGNAL 64 on", USUAL, CALL_LENGTH, 64, 0, 0),
    SIGNALS_NOT(19, "SIGNAL 66 on", USUAL, CALL_LENGTH, 66, 0, 0),
    SIGNALS_NOT(11, "no task: SIGNAL 0 on", IDLE, CALL_LENGTH, 0, 0, 0),
    SIGNALS_NOT(10, "15 bytes of SIGNAL 0 on", USUAL, 15, 0, 0, 0),

    /* Conditions count the events that are on, and those alone. */
    WAITS(2, "WAIT for 1, never signalled", 1, 0, 0),
    WAITS(2, "WAIT for 1, 0 off", 1, 0, 0x1),
    WAITS(2, "WAIT for 1, both off", 1, 0, EVENTS_0_1),
    WAITS(1, "WAIT for 1, 0 on, 1 never signalled", 1, 0x1, 0x1),
    WAITS(1, "WAIT for 1, 0 on, 1 off", 1, 0x1, EVENTS_0_1),
    WAITS(2, "WAIT for 2, 0 on, 1 never signalled", 2, 0x1, 0x1),
    WAITS(2, "WAIT for 2, 0 on, 1 off", 2, 0x1, EVENTS_0_1),
    WAITS(1, "WAIT for 2, both on", 2, EVENTS_0_1, EVENTS_0_1),

    /* 22 */
    CALL(0, "READ device 249", USUAL, READ, 0, 249, 0, 1, 0),
    CALL(22, "READ device 250", USUAL, READ, 0, 250, 0, 1, 0),
    CALL(0, "WRITE device 249", USUAL, WRITE, 0, 249, 0, 1, 0),
    CALL(22, "WRITE device 250", USUAL, WRITE, 0, 250, 0, 1, 0),

    /* 23 */
    CALL(23, "READ no byte", USUAL, READ, 0, 7, 0, 0, 0),
    CALL(0, "READ 65535 bytes", USUAL, READ, 0, 7, 0, 65535, 0),
    CALL(23, "READ 65536 bytes", USUAL, READ, 0, 7, 0, 65536, 0),
    CALL(23, "WRITE no byte", USUAL, WRITE, 0, 7, 0, 0, 0),
    CALL(23, "WRITE 65536 bytes", USUAL, WRITE, 0, 7, 0, 65536, 0),
    CALL(0, "SIGNAL 0 on", USUAL, SIGNAL, 0, 0, 1, 0, 0),
    CALL(23, "SIGNAL 0 by 2", USUAL, SIGNAL, 0, 0, 2, 0, 0),

    /* 18: the requests 1, 3 and 16 are of task 1, which runs; 2 is of task 2 */
    CALL(18, "CHECK 0", USUAL, CHECK, 0, 0, 0, 0, 0),
    CALL(0, "CHECK 1, on the channel", USUAL, CHECK, 0, 1, 0, 0, 0),
    CALL(18, "CHECK 2, of another", USUAL, CHECK, 0, 2, 0, 0, 0),
    CALL(0, "CHECK 3, done", USUAL, CHECK, 0, 3, 0, 0, 0),
    CALL(18, "CHECK 4, free", USUAL, CHECK, 0, 4, 0, 0, 0),
    CALL(0, "CHECK 16, done", USUAL, CHECK, 0, 16, 0, 0, 0),
    CALL(18, "CHECK 17", USUAL, CHECK, 0, 17, 0, 0, 0),

    /* 13 */
    CALL(0, "SCHEDULE kind 0", USUAL, SCHEDULE, 0, 0, 0, 0, 0),
    CALL(0, "SCHEDULE kind 3", USUAL, SCHEDULE, 3, 0, 0, 0, 0),
    CALL(13, "SCHEDULE kind 4", USUAL, SCHEDULE, 4, 0, 0, 0, 0),
    CALL(13, "WAIT kind 0", USUAL, WAIT, 0, 0, 0, 0, 0),
    CALL(0, "WAIT kind 2", USUAL, WAIT, 2, 0, 0, 0, 0),
    CALL(0, "WAIT for 1 of events 0, 1", USUAL, WAIT, 1, 0, 1, 0, EVENTS_0_1),
    CALL(13, "WAIT for 1 of events 0, 2", USUAL, WAIT, 1, 0, 1, 0, EVENTS_0_2),
    CALL(0, "WAIT kind 2, set not used", USUAL, WAIT, 2, 0, 0, 0, EVENTS_0_2),

    /* 14 */
    CALL(14, "WAIT for 0 of events 0, 1", USUAL, WAIT, 1, 0, 0, 0, EVENTS_0_1),
    CALL(0, "WAIT for 2 of events 0, 1", USUAL, WAIT, 1, 0, 2, 0, EVENTS_0_1),
    CALL(14, "WAIT for 3 of events 0, 1", USUAL, WAIT, 1, 0, 3, 0, EVENTS_0_1),
    CALL(0, "SCHEDULE on 3 of events 0, 1, 63", USUAL,
         SCHEDULE, 1, 0, 3, 0, EVENTS_0_1_63),
    CALL(14, "SCHEDULE on 4 of events 0, 1, 63", USUAL,
         SCHEDULE, 1, 0, 4, 0, EVENTS_0_1_63),
    CALL(14, "WAIT for 0 of no event", USUAL, WAIT, 1, 0, 0, 0, 0),
    CALL(14, "WAIT for 1 of no event", USUAL, WAIT, 1, 0, 1, 0, 0),

    /* 15 */
    CALL(0, "clock 0: WAIT 4294967295 cycles", USUAL, WAIT, 3, 0, 0, 4294967295, 0),
    CALL(0, "clock 1: WAIT 4294967294 cycles", FULL, WAIT, 3, 0, 0, 4294967294, 0),
    CALL(15, "clock 1: WAIT 4294967295 cycles", FULL, WAIT, 3, 0, 0, 4294967295, 0),
    CALL(0, "clock 1: WAIT until 4294967295", FULL, WAIT, 2, 0, 0, 4294967295, 0),

    /* 16 and 17 */
    CALL(0, "one task block: LINK 0", LAST, LINK, 0, 0, 0, 0, 0),
    CALL(16, "no task block: LINK 0", FULL, LINK, 0, 0, 0, 0, 0),
    CALL(16, "no task block: SCHEDULE 0", FULL, SCHEDULE, 0, 0, 0, 0, 0),
    CALL(16, "no task block: start 0", FULL, OPERATOR_START, 0, 0, 0, 0, 0),
    CALL(0, "one request block: READ", LAST, READ, 0, 7, 0, 4, 0),
    CALL(17, "no request block: READ", FULL, READ, 0, 7, 0, 4, 0),
    CALL(17, "no request block: WRITE", FULL, WRITE, 0, 7, 0, 4, 0),

    /* 20 and 21 */
    CALL(0, "I/O done", USUAL, IO_DONE, 0, 0, 0, 0, 0),
    CALL(20, "empty channel: I/O done", FULL, IO_DONE, 0, 0, 0, 0, 0),
    CALL(0, "timer", USUAL, TIMER, 0, 0, 0, 0, 0),
    CALL(0, "clock 4294967294: timer", LAST, TIMER, 0, 0, 0, 0, 0),
    AT_THE_END(21, "clock 4294967295: timer", TIMER, 0, 0, 0, 0, 0),

    /* Two rows apply: the first in the order of the table is given. */
    BROKEN(9, "9, 10", 15, FREEMAIN, 0, 0, 0, 0, 0),
    BROKEN(9, "9, 24", 16, 0, 0, 0, 0, 0, 0),
    CALL(24, "24, no task", IDLE, 2, 0, 0, 0, 0, 0),
    CALL(19, "19, 23", USUAL, SIGNAL, 0, 2, 2, 0, 0),
    CALL(22, "22, 23", USUAL, READ, 0, 250, 0, 0, 0),
    CALL(12, "12, 16", FULL, OPERATOR_START, 0, 3, 0, 0, 0),
    CALL(13, "13, 16", FULL, SCHEDULE, 4, 0, 0, 0, 0),
    CALL(14, "14, 16", FULL, SCHEDULE, 1, 0, 2, 0, 0x1),
    CALL(15, "15, 16", FULL, SCHEDULE, 3, 0, 0, 4294967295, 0),
    CALL(22, "22, 17", FULL, READ, 0, 250, 0, 4, 0),
    CALL(23, "23, 17", FULL, READ, 0, 7, 0, 0, 0),

    /* Document 02's E6: "the clock reading at which it last entered any waiting
       queue". Task 1 runs, 2 is ready, 3 is the first free block. */
    READING(0, "WAIT for event 0", USUAL, 1, 17, WAIT, 1, 0, 1, 0, 0x1),
    READING(0, "WAIT until 18", USUAL, 1, 17, WAIT, 2, 0, 0, 18, 0),
    READING(0, "WAIT a cycle", USUAL, 1, 17, WAIT, 3, 0, 0, 1, 0),
    READING(0, "WAIT until 17, which holds", USUAL, 1, 0, WAIT, 2, 0, 0, 17, 0),
    READING(0, "WAIT no cycle, which holds", USUAL, 1, 0, WAIT, 3, 0, 0, 0, 0),
    READING(0, "LINK, the caller", USUAL, 1, 17, LINK, 0, 0, 0, 0, 0),
    READING(0, "LINK, the child", USUAL, 3, 0, LINK, 0, 0, 0, 0, 0),
    READING(0, "CHECK of one on the channel", USUAL, 1, 17, CHECK, 0, 1, 0, 0, 0),
    READING(0, "CHECK of one that is done", USUAL, 1, 0, CHECK, 0, 3, 0, 0, 0),
    READING(0, "END with one on the channel", USUAL, 1, 17, END, 0, 0, 0, 0, 0),
    READING(0, "program check, the same", USUAL, 1, 17, PROGRAM_CHECK, 0, 0, 0, 0, 0),
    READING(0, "who is dispatched by that", USUAL, 2, 0, PROGRAM_CHECK, 0, 0, 0, 0, 0),
    READING(0, "END without a request", CHAIN, 24, 0, END, 0, 0, 0, 0, 0),
    READING(0, "its parent, who goes on", CHAIN, 23, 0, END, 0, 0, 0, 0, 0),
    READING(0, "its parent's, who stays", CHAIN, 22, 0, END, 0, 0, 0, 0, 0),
    READING(0, "DISPATCH CHECK", USUAL, 1, 0, DISPATCH_CHECK, 0, 0, 0, 0, 0),
    READING(0, "SCHEDULE on event 0", USUAL, 3, 17, SCHEDULE, 1, 0, 1, 0, 0x1),
    READING(0, "SCHEDULE at 18", USUAL, 3, 17, SCHEDULE, 2, 0, 0, 18, 0),
    READING(0, "SCHEDULE at 17, which holds", USUAL, 3, 0, SCHEDULE, 2, 0, 0, 17, 0),
    READING(0, "SCHEDULE at once", USUAL, 3, 0, SCHEDULE, 0, 0, 0, 0, 0),
    READING(0, "timer, who waits since 0", IDLE, 1, 0, TIMER, 0, 0, 0, 0, 0),
    READING(13, "WAIT kind 0, refused", USUAL, 1, 0, WAIT, 0, 0, 0, 0, 0),
    READING(15, "WAIT past the end, refused", USUAL, 1, 0, WAIT, 3, 0, 0, 4294967295, 0),
    READING(18, "CHECK of a free one, refused", USUAL, 1, 0, CHECK, 0, 4, 0, 0, 0),
    READING(12, "LINK of no module, refused", USUAL, 1, 0, LINK, 0, 3, 0, 0, 0),
    READING(16, "LINK without a block, refused", FULL, 1, 0, LINK, 0, 0, 0, 0, 0),

    /* "Moving between waiting queues sets it anew." In the sample 5 waits for 2
       of the events 1 and 2 and for core of level 3, which 18 waits for; 6 waits
       for event 3; both since 2. */
    MOVES("SIGNAL 2: from event to core", 5, WAITS_FOR_CORE, 5, SIGNAL, 2, 1, NOTHING),
    MOVES("SIGNAL 2: for another event", 6, WAITS_FOR_EVENTS, 2, SIGNAL, 2, 1, NOTHING),
    MOVES("SIGNAL 3: from event to ready", 6, READY, 0, SIGNAL, 3, 1, NOTHING),
    MOVES("SIGNAL 2 off: it stays", 5, WAITS_FOR_EVENTS, 2, SIGNAL, 2, 0, NOTHING),

    /* The timer makes the clock 6, which 2 divides. Who needs no core, or finds
       17 in the core queue of level 1. */
    MOVES("timer: from time to ready", 7, READY, 0, TIMER, 0, 0, SET(tasks[7].time, 6)),
    MOVES("timer: from time to core", 7, WAITS_FOR_CORE, 6, TIMER, 0, 0,
          SET(tasks[7].time, 6), SET(tasks[7].program, 4)),
    MOVES("timer: due at 5, woken at 6", 7, WAITS_FOR_CORE, 6, TIMER, 0, 0,
          SET(tasks[7].time, 5), SET(tasks[7].program, 4)),
    MOVES("timer: not due", 7, WAITS_FOR_TIME, 2, TIMER, 0, 0, NOTHING),
    MOVES("timer: who waits for core", 3, WAITS_FOR_CORE, 2, TIMER, 0, 0, NOTHING),

    /* 14 runs and has a request, its parents 13 and 9 have none; or 13 has one,
       in place of 11. */
    MOVES("program check: 14 is ending", 14, ENDING, 5, PROGRAM_CHECK, 0, 0, NOTHING),
    MOVES("program check: 13 finishes", 13, TASK_FREE, 0, PROGRAM_CHECK, 0, 0, NOTHING),
    MOVES("program check: 9 finishes", 9, TASK_FREE, 0, PROGRAM_CHECK, 0, 0, NOTHING),
    MOVES("program check: from LINK to ending", 13, ENDING, 5, PROGRAM_CHECK, 0, 0,
          SET(requests[4].owner, 13)),
    MOVES("program check: another stays ending", 1, ENDING, 3, PROGRAM_CHECK, 0, 0, NOTHING),
    MOVES("END: 14 is ending", 14, ENDING, 5, END, 0, 0, NOTHING),
    MOVES("END: its parent stays in LINK", 13, IN_LINK, 4, END, 0, 0, NOTHING),

    /* I/O done, of request 3, that 10 is in CHECK for; or of one of 11. */
    MOVES("I/O done: from CHECK to ready", 10, READY, 0, IO_DONE, 0, 0, NOTHING),
    MOVES("I/O done: of another's", 10, IN_CHECK, 3, IO_DONE, 0, 0,
          SET(requests[3].owner, 11), SET(requests[4].owner, 10), SET(tasks[10].request, 4)),
    MOVES("I/O done: its own goes on the channel", 10, IN_CHECK, 3, IO_DONE, 0, 0,
          SET(requests[4].owner, 10), SET(tasks[10].request, 4)),

    /* Task 1 finishes. Of level 3 it has the units 0 to 3; task 12 has 4 to 7, or
       60 to 63, so that 18 gets 60. */
    MOVES("I/O done: from ending to free", 1, TASK_FREE, 0, IO_DONE, 0, 0, LAST_OF_1),
    MOVES("I/O done: its core is not enough", 18, WAITS_FOR_CORE, 4, IO_DONE, 0, 0,
          LAST_OF_1, SET(tasks[18].since, 4)),
    MOVES("I/O done: from core to ready", 18, READY, 0, IO_DONE, 0, 0, LAST_OF_1,
          SET(tasks[12].start, 60), SET(pools[3], UINT64_C(0xf00000000000000f))),

    /* A new task waits for core at once. */
    MOVES("start of 5: core of level 3", 19, WAITS_FOR_CORE, 5, OPERATOR_START, 5, 0, NOTHING),
    MOVES("start of 2: who waits there", 3, WAITS_FOR_CORE, 2, OPERATOR_START, 2, 0, NOTHING),
    MOVES("DISPATCH CHECK: 9 stays in LINK", 9, IN_LINK, 3, DISPATCH_CHECK, 0, 0, NOTHING),

    /* Document 02's E8: "the start of the shortest unbroken free run that is long
       enough, the lowest of equals", or document 01's lowest start. */
    GRANTS("1 unit, smallest hole", SMALLEST_HOLE, 1, 12,
           UINT64_C(0xfffffffffffc1c00), HOLES_10_6),
    GRANTS("1 unit, lowest start", LOWEST_START, 1, 0,
           UINT64_C(0xfffffffffffc0c01), HOLES_10_6),
    GRANTS("5 units, smallest hole", SMALLEST_HOLE, 5, 12,
           UINT64_C(0xfffffffffffdfc00), HOLES_10_6),
    GRANTS("5 units, lowest start", LOWEST_START, 5, 0,
           UINT64_C(0xfffffffffffc0c1f), HOLES_10_6),
    GRANTS("6 units, smallest hole", SMALLEST_HOLE, 6, 12,
           UINT64_C(0xfffffffffffffc00), HOLES_10_6),
    GRANTS("6 units, lowest start", LOWEST_START, 6, 0,
           UINT64_C(0xfffffffffffc0c3f), HOLES_10_6),
    GRANTS("7 units, smallest hole", SMALLEST_HOLE, 7, 0,
           UINT64_C(0xfffffffffffc0c7f), HOLES_10_6),
    GRANTS("10 units, smallest hole", SMALLEST_HOLE, 10, 0,
           UINT64_C(0xfffffffffffc0fff), HOLES_10_6),
    GRANTS("10 units, lowest start", LOWEST_START, 10, 0,
           UINT64_C(0xfffffffffffc0fff), HOLES_10_6),
    GRANTS_NOT("11 units, smallest hole", SMALLEST_HOLE, 11,
               UINT64_C(0xfffffffffffc0c00), HOLES_10_6),
    GRANTS_NOT("11 units, lowest start", LOWEST_START, 11,
               UINT64_C(0xfffffffffffc0c00), HOLES_10_6),
    GRANTS("5 units, lowest of equals", SMALLEST_HOLE, 5, 0,
           UINT64_C(0xfffffffffffc031f), HOLES_8_8),
    GRANTS("8 units, lowest of equals", SMALLEST_HOLE, 8, 0,
           UINT64_C(0xfffffffffffc03ff), HOLES_8_8),
    GRANTS_NOT("9 units, two holes of 8", SMALLEST_HOLE, 9,
               UINT64_C(0xfffffffffffc0300), HOLES_8_8),
    GRANTS("5 units, the pool's end", SMALLEST_HOLE, 5, 58,
           UINT64_C(0x7ffffffffffffc00), HOLES_10_6_AT_63),
    GRANTS("6 units, the pool's end", SMALLEST_HOLE, 6, 58,
           UINT64_C(0xfffffffffffffc00), HOLES_10_6_AT_63),
    GRANTS("7 units, the pool's end", SMALLEST_HOLE, 7, 0,
           UINT64_C(0x03fffffffffffc7f), HOLES_10_6_AT_63),
    SERVES("served by the smallest hole", SMALLEST_HOLE, 60,
           UINT64_C(0xffffffffc00fffff)),
    SERVES("served by the lowest start", LOWEST_START, 20,
           UINT64_C(0x0fffffffc0ffffff)),

    /* Where the fields of a call go; a set that is read and not used. */
    NEW_TASK("SCHEDULE 1 on 1 of event 0", 1, 1, 0x1, 0, SCHEDULE, 1, 1, 1, 0, 0x1),
    NEW_TASK("SCHEDULE 2 at 16,909,060", 2, 0, 0, 16909060,
             SCHEDULE, 2, 2, 0, 16909060, EVENT_63),
    NEW_TASK("SCHEDULE 2 on 2 of events 1, 63", 2, 2, UINT64_C(0x8000000000000002), 0,
             SCHEDULE, 1, 2, 2, 16909060, UINT64_C(0x8000000000000002)),
    NEW_REQUEST("READ 513 bytes from device 249", 249, READ, 513, READ, 1, 249, 1, 513, 0x1),
    NEW_REQUEST("WRITE 65535 bytes to device 0", 0, WRITE, 65535, WRITE, 0, 0, 0, 65535, 0),
};

const size_t refusal_cases_count =
    sizeof refusal_cases / sizeof refusal_cases[0];
