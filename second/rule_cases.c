/* The table rules, each broken in three ways or more, and kept by neighbours of
   what breaks it. What a case has to be was found by hand, from the papers; it
   breaks that rule alone, save where another is named as found. An event that is
   on and not defined always breaks one of document 02's two rules on signalled
   events, too, which stand behind that one. */
#include "cases.h"

/* The rules, by the words that rules.c and tables.c have for them. */
static const char directory_passes[] = "the directory passes 4 to 7";
static const char fields_in_range[] = "every field in range";
static const char events_on_defined[] = "events on are defined";
static const char events_on_signalled[] =
    "an event that is on has been signalled";
static const char events_signalled_defined[] = "a signalled event is defined";
static const char pointers_right[] =
    "a forward and a back pointer for the queue they are on";
static const char tasks_in_one_place[] = "each task block in exactly one place";
static const char requests_in_one_place[] =
    "each request block in exactly one place";
static const char free_sets_right[] = "the free blocks are sets";
static const char free_blocks_zero[] = "a free block is zero";
static const char no_block_zero[] = "zero names no block";
static const char idle_fields_zero[] = "any field with no meaning is zero";
static const char core_adds_up[] = "core runs disjoint, with the free units 64";
static const char no_ring[] = "LINK parents never form a ring";
static const char idle_if_nothing_ready[] = "idle only if nothing is ready";
static const char no_condition_holds[] =
    "no event waiter's condition already holds";
static const char no_first_waiter_fits[] = "no first waiter for core would fit";
static const char readings_not_past[] =
    "the reading of a wait is never past the clock";
static const char time_queue_by_time[] = "the time queue by time";
static const char channel_queue_by_level[] = "the channel queue by level";
static const char queues_hold_own_level[] =
    "ready and core queues hold their level's tasks";
static const char runs_have_length[] = "a run has its module's length";
static const char core_need_in_place[] =
    "core waiters still need core, besides them only event and time waiters";
static const char event_waiters_pass[] = "event waiters pass 13 and 14";
static const char links_agree[] =
    "a LINK waiter has exactly one child, a parent is in LINK";
static const char owners_used[] = "a used request's owner is a used task";
static const char check_waits_for_own[] = "CHECK waits for an own pending request";
static const char ending_has_pending[] = "an ending task has one";
static const char no_queue_behind_empty[] = "no queue behind an empty channel";

/* A row: the rule that it is of; what is done to the tables; which tables. */
#define BREAKS(rule, name, from, ...) {rule, rule, name, from, {__VA_ARGS__}}
#define KEEPS(rule, name, from, ...) {rule, NULL, name, from, {__VA_ARGS__}}
/* The same, where another rule is found first. */
#define BREAKS_TOO(rule, found, name, from, ...) \
    {rule, found, name, from, {__VA_ARGS__}}

/* The queue is the block x; the blocks x and y. */
#define ONE(queue, x)                                             \
    SET(threads.first[queue], x), SET(threads.last[queue], x),    \
    SET(threads.fwd[x], 0), SET(threads.back[x], 0)
#define TWO(queue, x, y)                                          \
    SET(threads.first[queue], x), SET(threads.last[queue], y),    \
    SET(threads.fwd[x], y), SET(threads.back[x], 0),              \
    SET(threads.fwd[y], 0), SET(threads.back[y], x)

/* The events that are on, and those that have been signalled; these are on, and
   no others have been signalled. */
#define EVENTS_ARE(on_now, ever) SET(on, on_now), SET(signalled, ever)
#define ON(set) EVENTS_ARE(set, set)

/* Other parents of the tasks 9, 13 and 14. In the sample 9 is in LINK for 13,
   and 13 in LINK for 14, which runs. */
#define PARENTS(of_9, of_13, of_14)                               \
    SET(tasks[9].parent, of_9), SET(tasks[13].parent, of_13),     \
    SET(tasks[14].parent, of_14)

/* The run of a task at another start, and other units of its level granted. */
#define RUN(block, begin, level, granted) \
    SET(tasks[block].start, begin), SET(pools[level], granted)

/* From the loaded tables: a module with core is started, so that task 1 runs
   and has the first units of its level; the task is ready, and nobody runs. */
#define STARTED(module, level, granted)                           \
    SET(tasks[1].place, RUNNING), SET(tasks[1].program, module),  \
    SET(tasks[1].core, CORE_HELD), SET(running, 1),               \
    SET(free_tasks, 0x1fffffc), SET(pools[level], granted)
#define NOBODY_RUNS(module, level, granted)                       \
    STARTED(module, level, granted), SET(tasks[1].place, READY),  \
    SET(running, 0), ONE(level, 1)

/* It has read: request 1 is on the channel; is queued, with nothing on it. */
#define READS(module, level, granted)                             \
    STARTED(module, level, granted),                              \
    SET(requests[1].place, ON_CHANNEL), SET(requests[1].owner, 1), \
    SET(requests[1].device, 7), SET(requests[1].command, READ),   \
    SET(requests[1].bytes, 80), SET(free_requests, 0x1fffc), SET(channel, 1)
#define NOTHING_ON(module, level, granted)                        \
    READS(module, level, granted), SET(requests[1].place, QUEUED), \
    SET(channel, 0), SET(threads.first[8], 25), SET(threads.last[8], 25)

/* A request is another's, and task 10 is in CHECK for that. */
#define AWAITED(block, of) \
    SET(requests[block].owner, of), SET(tasks[10].request, block)

/* Task 10 is ending, with request 3 its owner's. */
#define ENDS(of)                                                  \
    SET(tasks[10].place, ENDING), SET(tasks[10].request, 0),      \
    SET(requests[3].owner, of)

const struct rule_case rule_cases[] = {

    /* No task uses module 6; module 8 is not used. 264, 258 and 256 end in the
       byte of a good number. */
    BREAKS(directory_passes, "M 0", LOADED, SET(directory.modules, 0)),
    BREAKS(directory_passes, "M 33", SAMPLE, SET(directory.modules, 33)),
    BREAKS(directory_passes, "M 264", SAMPLE, SET(directory.modules, 264)),
    BREAKS(directory_passes, "N 0", SAMPLE, SET(directory.every, 0)),
    BREAKS(directory_passes, "N 256", SAMPLE, SET(directory.every, 256)),
    BREAKS(directory_passes, "N 258", SAMPLE, SET(directory.every, 258)),
    BREAKS(directory_passes, "level 0", SAMPLE, SET(directory.entries[6].level, 0)),
    BREAKS(directory_passes, "level 4", SAMPLE, SET(directory.entries[6].level, 4)),
    BREAKS(directory_passes, "65 units", SAMPLE, SET(directory.entries[6].units, 65)),
    BREAKS(directory_passes, "flags 2", SAMPLE, SET(directory.entries[6].flags, 2)),
    BREAKS(directory_passes, "flags 256", SAMPLE, SET(directory.entries[6].flags, 256)),
    BREAKS(directory_passes, "a level in the first unused entry", SAMPLE,
           SET(directory.entries[8].level, 1)),
    BREAKS(directory_passes, "an entry point in the last unused entry", SAMPLE,
           SET(directory.entries[31].point, 1)),
    KEEPS(directory_passes, "N 255", SAMPLE, SET(directory.every, 255)),
    KEEPS(directory_passes, "level 3", SAMPLE, SET(directory.entries[6].level, 3)),
    KEEPS(directory_passes, "64 units", SAMPLE, SET(directory.entries[6].units, 64)),
    KEEPS(directory_passes, "flags 1", SAMPLE, SET(directory.entries[6].flags, 1)),

    /* Task 1 is ending, 9 in LINK, 10 in CHECK on request 3, 11 has given its
       core back, 15 is ready; request 1 is done. */
    BREAKS(fields_in_range, "task 25 runs", LOADED, SET(running, 25)),
    BREAKS(fields_in_range, "request 17 is on the channel", LOADED, SET(channel, 17)),
    BREAKS_TOO(fields_in_range, core_adds_up, "a run goes over unit 63", SAMPLE,
               RUN(12, 61, 3, UINT64_C(0xe00000000000000f))),
    BREAKS(fields_in_range, "place 9 of a task", SAMPLE, SET(tasks[1].place, 9),
           SET(tasks[1].since, 0)),
    BREAKS(fields_in_range, "module 8 of 8", SAMPLE, SET(tasks[9].program, 8)),
    BREAKS(fields_in_range, "module 32", SAMPLE, SET(tasks[9].program, 32)),
    BREAKS(fields_in_range, "module 255", SAMPLE, SET(tasks[9].program, 255)),
    BREAKS(fields_in_range, "CHECK for request 17", SAMPLE, SET(tasks[10].request, 17)),
    BREAKS(fields_in_range, "CHECK for request 19", SAMPLE, SET(tasks[10].request, 19)),
    BREAKS(fields_in_range, "CHECK for request 255", SAMPLE, SET(tasks[10].request, 255)),
    BREAKS(fields_in_range, "parent 25", SAMPLE, SET(tasks[15].parent, 25)),
    BREAKS(fields_in_range, "core 3", SAMPLE, SET(tasks[11].core, 3)),
    BREAKS(fields_in_range, "place 4 of a request", SAMPLE, SET(requests[1].place, 4)),
    BREAKS(fields_in_range, "device 250", SAMPLE, SET(requests[1].device, 250)),
    BREAKS(fields_in_range, "command 12", SAMPLE, SET(requests[1].command, 12)),
    BREAKS(fields_in_range, "command 15", SAMPLE, SET(requests[1].command, 15)),
    BREAKS(fields_in_range, "no bytes", SAMPLE, SET(requests[1].bytes, 0)),
    KEEPS(fields_in_range, "module 7 of 8", SAMPLE, SET(tasks[9].program, 7)),
    KEEPS(fields_in_range, "device 249", SAMPLE, SET(requests[1].device, 249)),
    KEEPS(fields_in_range, "command 14", SAMPLE, SET(requests[1].command, 14)),
    KEEPS(fields_in_range, "65,535 bytes", SAMPLE, SET(requests[1].bytes, 65535)),
    KEEPS(fields_in_range, "a run ends with unit 63", SAMPLE,
          RUN(12, 60, 3, UINT64_C(0xf00000000000000f))),

    /* Document 02's E8: the rule of the grants is 0 or 1. 256 and 4,294,967,297 end
       in the bits of these. */
    BREAKS(fields_in_range, "holes 2", SAMPLE, SET(holes, 2)),
    BREAKS(fields_in_range, "holes 3", SAMPLE, SET(holes, 3)),
    BREAKS(fields_in_range, "holes 256", SAMPLE, SET(holes, 256)),
    BREAKS(fields_in_range, "holes 4,294,967,297", SAMPLE,
           SET(holes, UINT64_C(0x100000001))),
    BREAKS(fields_in_range, "holes, the highest bit", SAMPLE,
           SET(holes, UINT64_C(0x8000000000000000))),
    BREAKS(fields_in_range, "holes, the highest value", SAMPLE, SET(holes, UINT64_MAX)),
    BREAKS(fields_in_range, "holes 2, just loaded", LOADED, SET(holes, 2)),
    BREAKS(fields_in_range, "holes 2, in the chain", CHAIN, SET(holes, 2)),
    KEEPS(fields_in_range, "holes 0", SAMPLE, SET(holes, 0)),
    KEEPS(fields_in_range, "holes 1", SAMPLE, SET(holes, 1)),
    KEEPS(fields_in_range, "holes 0, just loaded", LOADED, SET(holes, 0)),
    KEEPS(fields_in_range, "holes 1, just loaded", LOADED, SET(holes, 1)),
    KEEPS(fields_in_range, "holes 0, in the chain", CHAIN, SET(holes, 0)),

    /* The events 0 to 7 are defined, 1 is on, and 1 and 2 have been signalled; 1,
       2 and 3 are waited for. */
    BREAKS(events_on_defined, "8 is on", SAMPLE, SET(on, 258)),
    BREAKS(events_on_defined, "8 is on, and has been signalled", SAMPLE, ON(258)),
    BREAKS(events_on_defined, "63 is on", SAMPLE, ON(UINT64_C(0x8000000000000002))),
    BREAKS(events_on_defined, "4 is on, and no more defined", SAMPLE,
           ON(18), SET(directory.defined, 239)),
    BREAKS(events_on_defined, "8 is on, just loaded", LOADED, SET(on, 256)),
    KEEPS(events_on_defined, "none is on", SAMPLE, SET(on, 0)),
    KEEPS(events_on_defined, "1 and 4 are on", SAMPLE, ON(18)),
    KEEPS(events_on_defined, "all but 2 and 3 are on", SAMPLE, ON(243)),
    KEEPS(events_on_defined, "4 is no more defined", SAMPLE, SET(directory.defined, 239)),

    BREAKS(events_on_signalled, "1 is on, and none has been", SAMPLE, SET(signalled, 0)),
    BREAKS(events_on_signalled, "1 is on, and 2 alone has been", SAMPLE, SET(signalled, 4)),
    BREAKS(events_on_signalled, "1 is on, and all others have been", SAMPLE,
           SET(signalled, 253)),
    BREAKS(events_on_signalled, "1 and 4 are on, and 1 and 2 have been", SAMPLE, SET(on, 18)),
    BREAKS(events_on_signalled, "63 is on, is defined, and has not been", SAMPLE,
           SET(directory.defined, UINT64_C(0x80000000000000ff)),
           SET(on, UINT64_C(0x8000000000000002))),
    BREAKS(events_on_signalled, "0 is on, just loaded", LOADED, SET(on, 1)),
    BREAKS(events_on_signalled, "all are on, and all but 7 have been", LOADED,
           EVENTS_ARE(255, 127)),
    KEEPS(events_on_signalled, "1 is on and has been, 2 is off and has been", SAMPLE, NOTHING),
    KEEPS(events_on_signalled, "1 is on, and alone has been", SAMPLE, ON(2)),
    KEEPS(events_on_signalled, "none is on, and 1 and 2 have been", SAMPLE, SET(on, 0)),
    KEEPS(events_on_signalled, "1 is on, and all have been", SAMPLE, SET(signalled, 255)),
    KEEPS(events_on_signalled, "63 is on, is defined, and has been", SAMPLE,
          SET(directory.defined, UINT64_C(0x80000000000000ff)),
          ON(UINT64_C(0x8000000000000002))),
    KEEPS(events_on_signalled, "0 is off and has been, just loaded", LOADED, SET(signalled, 1)),
    KEEPS(events_on_signalled, "all are on, and all have been", LOADED, ON(255)),

    BREAKS(events_signalled_defined, "8 has been", SAMPLE, SET(signalled, 262)),
    BREAKS(events_signalled_defined, "63 has been", SAMPLE,
           SET(signalled, UINT64_C(0x8000000000000006))),
    BREAKS(events_signalled_defined, "4 has been, and is no more defined", SAMPLE,
           SET(signalled, 22), SET(directory.defined, 239)),
    BREAKS(events_signalled_defined, "all have been, defined or not", SAMPLE,
           SET(signalled, UINT64_MAX)),
    BREAKS(events_signalled_defined, "8 has been, just loaded", LOADED, SET(signalled, 256)),
    BREAKS(events_signalled_defined, "0 has been, and none is defined", LOADED,
           SET(signalled, 1), SET(directory.defined, 0)),
    KEEPS(events_signalled_defined, "all defined ones have been", SAMPLE, SET(signalled, 255)),
    KEEPS(events_signalled_defined, "4 has been, and is defined", SAMPLE, SET(signalled, 22)),
    KEEPS(events_signalled_defined, "63 has been, and is defined", SAMPLE,
          SET(signalled, UINT64_C(0x8000000000000006)),
          SET(directory.defined, UINT64_C(0x80000000000000ff))),
    KEEPS(events_signalled_defined, "none has been, and none is on", SAMPLE, ON(0)),
    KEEPS(events_signalled_defined, "all defined ones have been, just loaded", LOADED,
          SET(signalled, 255)),
    KEEPS(events_signalled_defined, "none has been, and none is defined", LOADED,
          SET(directory.defined, 0)),

    /* Rings: of one block; of two; the end of a queue goes back into it; a
       queue that is nothing but a ring. */
    BREAKS(pointers_right, "a ring of one block", SAMPLE, SET(threads.fwd[2], 2)),
    BREAKS(pointers_right, "a ring of two", SAMPLE, SET(threads.fwd[16], 15)),
    BREAKS(pointers_right, "the end goes back into the queue", SAMPLE,
           SET(threads.fwd[8], 11)),
    BREAKS(pointers_right, "a queue that is a ring", SAMPLE,
           SET(threads.fwd[4], 3), SET(threads.back[3], 4)),
    BREAKS(pointers_right, "a block last in two queues", SAMPLE, SET(threads.fwd[16], 12)),
    BREAKS(pointers_right, "a block first in two queues", SAMPLE,
           SET(threads.first[2], 12)),
    BREAKS(pointers_right, "two queues go on into the other's end", SAMPLE,
           SET(threads.fwd[5], 16), SET(threads.fwd[15], 6)),
    BREAKS(pointers_right, "the same, and back", SAMPLE, SET(threads.fwd[5], 16),
           SET(threads.fwd[15], 6), SET(threads.back[16], 5), SET(threads.back[6], 15)),
    BREAKS(pointers_right, "no way back from the last", SAMPLE, SET(threads.back[16], 0)),
    BREAKS(pointers_right, "back into another queue", SAMPLE, SET(threads.back[6], 16)),
    BREAKS(pointers_right, "the first is named as last", SAMPLE, SET(threads.last[1], 15)),
    BREAKS(pointers_right, "none is named as last", SAMPLE, SET(threads.last[4], 0)),
    BREAKS(pointers_right, "forward from a block on no queue", SAMPLE,
           SET(threads.fwd[20], 1)),
    BREAKS(pointers_right, "back from a block on no queue", SAMPLE,
           SET(threads.back[40], 1)),
    BREAKS(pointers_right, "forward to 41", SAMPLE, SET(threads.fwd[16], 41)),
    BREAKS(pointers_right, "255 is named as first", SAMPLE, SET(threads.first[4], 255)),
    BREAKS(pointers_right, "forward from no block", SAMPLE, SET(threads.fwd[0], 1)),
    KEEPS(pointers_right, "two of a ready queue change their turns", SAMPLE, TWO(1, 16, 15)),
    KEEPS(pointers_right, "two event waiters change their turns", SAMPLE, TWO(0, 6, 5)),

    BREAKS(tasks_in_one_place, "another runs than the one that says so", SAMPLE,
           SET(running, 15)),
    BREAKS(tasks_in_one_place, "two say that they run", SAMPLE, SET(tasks[15].place, RUNNING)),
    BREAKS(tasks_in_one_place, "ready, and says that it awaits events", SAMPLE,
           SET(tasks[15].place, WAITS_FOR_EVENTS)),
    BREAKS(tasks_in_one_place, "awaits core, and says that it awaits time", SAMPLE,
           SET(tasks[17].place, WAITS_FOR_TIME)),
    BREAKS(tasks_in_one_place, "on no queue, and says that it is ready", SAMPLE,
           SET(tasks[1].place, READY), SET(tasks[1].since, 0)),
    BREAKS(tasks_in_one_place, "4 has changed queues with 2", SAMPLE, ONE(2, 4), TWO(5, 3, 2)),
    KEEPS(tasks_in_one_place, "two core waiters change their turns", SAMPLE, TWO(5, 4, 3)),

    BREAKS(requests_in_one_place, "another is on the channel than says so", SAMPLE,
           SET(channel, 1)),
    BREAKS(requests_in_one_place, "two say that they are on the channel", SAMPLE,
           SET(requests[1].place, ON_CHANNEL)),
    BREAKS(requests_in_one_place, "one says that it is queued, and is not", SAMPLE,
           SET(requests[1].place, QUEUED)),
    BREAKS(requests_in_one_place, "one is queued, and says that it is done", SAMPLE,
           SET(requests[5].place, DONE)),
    KEEPS(requests_in_one_place, "a request in each place", SAMPLE, NOTHING),

    /* Free are the tasks 19 to 24 and the requests 6 to 16. */
    BREAKS(free_sets_right, "without task 19", SAMPLE, SET(free_tasks, 0x1f00000)),
    BREAKS(free_sets_right, "with task 1", SAMPLE, SET(free_tasks, 0x1f80002)),
    BREAKS(free_sets_right, "with task 0", SAMPLE, SET(free_tasks, 0x1f80001)),
    BREAKS(free_sets_right, "with task 25", SAMPLE, SET(free_tasks, 0x3f80000)),
    BREAKS(free_sets_right, "without request 6", SAMPLE, SET(free_requests, 0x1ff80)),
    BREAKS(free_sets_right, "with request 1", SAMPLE, SET(free_requests, 0x1ffc2)),
    BREAKS(free_sets_right, "with request 0", SAMPLE, SET(free_requests, 0x1ffc1)),
    BREAKS(free_sets_right, "with request 17", SAMPLE, SET(free_requests, 0x3ffc0)),
    KEEPS(free_sets_right, "some blocks are free", SAMPLE, NOTHING),
    KEEPS(free_sets_right, "all blocks are free", LOADED, NOTHING),

    /* Task 3 waits for core, 5 for events, 11 has given its core back, 14 runs,
       15 is ready. Then free blocks, and slot 0. The clock is 5. */
    BREAKS(idle_fields_zero, "a count while it runs", SAMPLE, SET(tasks[14].count, 1)),
    BREAKS(idle_fields_zero, "events while it is ready", SAMPLE, SET(tasks[15].events, 8)),
    BREAKS(idle_fields_zero, "a time while it awaits events", SAMPLE, SET(tasks[5].time, 9)),
    BREAKS(idle_fields_zero, "a request while it is ready", SAMPLE, SET(tasks[15].request, 5)),
    BREAKS(idle_fields_zero, "a reading while it runs", SAMPLE, SET(tasks[14].since, 1)),
    BREAKS(idle_fields_zero, "the clock as its reading while it runs", SAMPLE,
           SET(tasks[14].since, 5)),
    BREAKS(idle_fields_zero, "a reading while it is ready", SAMPLE, SET(tasks[15].since, 1)),
    BREAKS(idle_fields_zero, "a reading while it is ready, with core", SAMPLE,
           SET(tasks[12].since, 5)),
    BREAKS(idle_fields_zero, "a reading while it is ready, of level 2", SAMPLE,
           SET(tasks[2].since, 2)),
    BREAKS_TOO(idle_fields_zero, core_adds_up, "a start while it awaits core", SAMPLE,
               SET(tasks[3].start, 1)),
    BREAKS_TOO(idle_fields_zero, core_adds_up, "a start while its core is given back", SAMPLE,
               SET(tasks[11].start, 8)),
    BREAKS(idle_fields_zero, "core given back, of a module without", SAMPLE,
           SET(tasks[15].core, 2)),
    BREAKS_TOO(idle_fields_zero, free_blocks_zero, "a module of a free task", SAMPLE,
               SET(tasks[24].program, 1)),
    BREAKS(idle_fields_zero, "a time of a free task", SAMPLE, SET(tasks[19].time, 1)),
    BREAKS(idle_fields_zero, "events of a free task", SAMPLE,
           SET(tasks[19].events, UINT64_C(0x8000000000000000))),
    BREAKS(idle_fields_zero, "a reading of the first free task", SAMPLE,
           SET(tasks[19].since, 1)),
    BREAKS(idle_fields_zero, "a reading of the last free task", SAMPLE,
           SET(tasks[24].since, 5)),
    BREAKS_TOO(idle_fields_zero, free_blocks_zero, "a device of a free request", SAMPLE,
               SET(requests[16].device, 7)),
    BREAKS_TOO(idle_fields_zero, free_blocks_zero, "an owner of a free request", SAMPLE,
               SET(requests[6].owner, 1)),
    BREAKS_TOO(idle_fields_zero, no_block_zero, "a time of task 0", SAMPLE,
               SET(tasks[0].time, 1)),
    BREAKS_TOO(idle_fields_zero, no_block_zero, "a reading of task 0", SAMPLE,
               SET(tasks[0].since, 1)),
    BREAKS_TOO(idle_fields_zero, no_block_zero, "bytes of request 0", SAMPLE,
               SET(requests[0].bytes, 1)),
    BREAKS_TOO(idle_fields_zero, no_block_zero, "a unit of level 0", SAMPLE, SET(pools[0], 1)),
    KEEPS(idle_fields_zero, "device 0", SAMPLE, SET(requests[1].device, 0)),
    KEEPS(idle_fields_zero, "reentrant", SAMPLE, SET(directory.entries[1].flags, 1)),
    KEEPS(idle_fields_zero, "the highest entry point", SAMPLE,
          SET(directory.entries[1].point, UINT32_MAX)),
    KEEPS(idle_fields_zero, "a reading of each who waits, and of no other", SAMPLE, NOTHING),
    KEEPS(idle_fields_zero, "another reading while it awaits core", SAMPLE,
          SET(tasks[3].since, 1)),
    KEEPS(idle_fields_zero, "another while it awaits events", SAMPLE, SET(tasks[5].since, 1)),
    KEEPS(idle_fields_zero, "another while it awaits time", SAMPLE, SET(tasks[7].since, 1)),
    KEEPS(idle_fields_zero, "another while it is in LINK", SAMPLE, SET(tasks[9].since, 1)),
    KEEPS(idle_fields_zero, "another while it is in CHECK", SAMPLE, SET(tasks[10].since, 1)),
    KEEPS(idle_fields_zero, "another while it is ending", SAMPLE, SET(tasks[1].since, 1)),

    /* Level 1: task 10 has the units 0 to 7, and 16 the units 8 to 15. Level 2:
       task 2 has 0 to 59. Level 3: task 1 has 0 to 3, and 12 has 4 to 7. */
    BREAKS(core_adds_up, "16 overlaps 10 by a unit", SAMPLE, RUN(16, 7, 1, 0x7fff)),
    BREAKS(core_adds_up, "10 overlaps 16 by a unit", SAMPLE, RUN(10, 1, 1, 0xfffe)),
    BREAKS(core_adds_up, "12 overlaps 1 by a unit", SAMPLE, RUN(12, 3, 3, 0x7f)),
    BREAKS(core_adds_up, "12 overlaps 1 by a run", SAMPLE, RUN(12, 0, 3, 0xff)),
    BREAKS(core_adds_up, "the first unit of a run is free", SAMPLE, SET(pools[1], 0xfffe)),
    BREAKS(core_adds_up, "a unit that nobody has is granted", SAMPLE, SET(pools[1], 0x1ffff)),
    BREAKS(core_adds_up, "the last unit of a run is free", SAMPLE,
           SET(pools[2], UINT64_C(0x7ffffffffffffff))),
    BREAKS(core_adds_up, "unit 63, that nobody has, is granted", SAMPLE,
           SET(pools[3], UINT64_C(0x80000000000000ff))),
    BREAKS(core_adds_up, "16 has given its run back, and it is granted", SAMPLE,
           SET(tasks[16].core, CORE_GIVEN_BACK), SET(tasks[16].start, 0)),
    KEEPS(core_adds_up, "16 begins a unit later", SAMPLE, RUN(16, 9, 1, 0x1feff)),
    KEEPS(core_adds_up, "12 begins a unit later", SAMPLE, RUN(12, 5, 3, 0x1ef)),

    /* Each in a ring is in LINK and has one child. A chain of all has none. */
    BREAKS(no_ring, "9 is its own parent", SAMPLE, PARENTS(9, 0, 13)),
    BREAKS(no_ring, "13 is its own parent", SAMPLE, PARENTS(0, 13, 9)),
    BREAKS(no_ring, "9 and 13 are each other's parents", SAMPLE, PARENTS(13, 9, 0)),
    BREAKS(no_ring, "a ring of three", SAMPLE, PARENTS(10, 9, 0),
           SET(tasks[10].place, IN_LINK), SET(tasks[10].request, 0), SET(tasks[10].parent, 13)),
    BREAKS(no_ring, "a ring of all", CHAIN, SET(tasks[1].parent, 24),
           SET(tasks[24].place, IN_LINK), SET(running, 0)),
    KEEPS(no_ring, "a chain of all", CHAIN, NOTHING),
    KEEPS(no_ring, "13 in LINK for 9, and 9 for 14", SAMPLE, PARENTS(13, 0, 9)),

    BREAKS(idle_if_nothing_ready, "one of level 1 is ready", LOADED, NOBODY_RUNS(1, 1, 0xff)),
    BREAKS(idle_if_nothing_ready, "one of level 2 is ready", LOADED, NOBODY_RUNS(6, 2, 0xf)),
    BREAKS(idle_if_nothing_ready, "one of level 3 is ready", LOADED, NOBODY_RUNS(3, 3, 0xf)),
    KEEPS(idle_if_nothing_ready, "one of level 1 runs", LOADED, STARTED(1, 1, 0xff)),
    KEEPS(idle_if_nothing_ready, "one of level 2 runs", LOADED, STARTED(6, 2, 0xf)),
    KEEPS(idle_if_nothing_ready, "one of level 3 runs", LOADED, STARTED(3, 3, 0xf)),
    KEEPS(idle_if_nothing_ready, "there is no task", LOADED, NOTHING),

    /* Event 1 is on. Task 5 waits for two of the events 1 and 2, 6 for 3. Of
       these 3 alone was never signalled. */
    BREAKS(no_condition_holds, "2 is on, too", SAMPLE, SET(on, 6)),
    BREAKS(no_condition_holds, "3 is on, too", SAMPLE, ON(10)),
    BREAKS(no_condition_holds, "one of 1 and 2 is enough", SAMPLE, SET(tasks[5].count, 1)),
    BREAKS(no_condition_holds, "one of 1 and 3 is awaited", SAMPLE, SET(tasks[6].events, 10)),
    KEEPS(no_condition_holds, "2 is on alone", SAMPLE, SET(on, 4)),
    KEEPS(no_condition_holds, "all but 2 and 3 are on", SAMPLE, ON(243)),
    KEEPS(no_condition_holds, "one of 0 and 3 is awaited", SAMPLE, SET(tasks[6].events, 9)),
    KEEPS(no_condition_holds, "3 is off, and has been signalled", SAMPLE, SET(signalled, 14)),

    /* Free in one run are 48 units of level 1, 4 of level 2 and 56 of level 3;
       first are the tasks 17 of module 4, 3 of module 2 and 18 of module 5. */
    BREAKS(no_first_waiter_fits, "48 units of 48", SAMPLE, SET(directory.entries[4].units, 48)),
    BREAKS(no_first_waiter_fits, "4 units of 4", SAMPLE, SET(tasks[3].program, 6)),
    BREAKS(no_first_waiter_fits, "56 units of 56", SAMPLE, SET(directory.entries[5].units, 56)),
    BREAKS(no_first_waiter_fits, "a unit of 48", SAMPLE, SET(directory.entries[4].units, 1)),
    KEEPS(no_first_waiter_fits, "49 units of 48", SAMPLE, SET(directory.entries[4].units, 49)),
    KEEPS(no_first_waiter_fits, "the second would fit", SAMPLE, SET(tasks[4].program, 6)),
    KEEPS(no_first_waiter_fits, "57 units of 56", SAMPLE, SET(directory.entries[5].units, 57)),

    /* Document 02's E6. The clock is 5. Task 1 is ending, 3, 17 and 18 wait for
       core, the last two since 5; 5 waits for events, 7 for time, 9 is in LINK and
       10 in CHECK. A reading of 0 is one of those who wait, too: it is that of
       clock 0. 256 and 65,541 end in the bytes of good ones. */
    BREAKS(readings_not_past, "core since 6", SAMPLE, SET(tasks[3].since, 6)),
    BREAKS(readings_not_past, "events since 6", SAMPLE, SET(tasks[5].since, 6)),
    BREAKS(readings_not_past, "time since 6", SAMPLE, SET(tasks[7].since, 6)),
    BREAKS(readings_not_past, "LINK since 6", SAMPLE, SET(tasks[9].since, 6)),
    BREAKS(readings_not_past, "CHECK since 6", SAMPLE, SET(tasks[10].since, 6)),
    BREAKS(readings_not_past, "ending since 6", SAMPLE, SET(tasks[1].since, 6)),
    BREAKS(readings_not_past, "core since 6, the last of all", SAMPLE, SET(tasks[18].since, 6)),
    BREAKS(readings_not_past, "time since its time, 50", SAMPLE, SET(tasks[7].since, 50)),
    BREAKS(readings_not_past, "events since 256", SAMPLE, SET(tasks[5].since, 256)),
    BREAKS(readings_not_past, "LINK since 65541", SAMPLE, SET(tasks[9].since, 65541)),
    BREAKS(readings_not_past, "CHECK since 4294967295", SAMPLE,
           SET(tasks[10].since, UINT32_MAX)),
    BREAKS(readings_not_past, "two since 5, and the clock is 4", SAMPLE, SET(clock, 4)),
    BREAKS(readings_not_past, "the clock is 0", SAMPLE, SET(clock, 0)),
    BREAKS(readings_not_past, "LINK since 1, and the clock is 0", CHAIN, SET(tasks[1].since, 1)),
    BREAKS(readings_not_past, "LINK since the clock's end, and it is one before", CHAIN,
           SET(tasks[23].since, UINT32_MAX), SET(clock, UINT32_MAX - 1)),
    KEEPS(readings_not_past, "core since 5", SAMPLE, SET(tasks[3].since, 5)),
    KEEPS(readings_not_past, "events since 5", SAMPLE, SET(tasks[5].since, 5)),
    KEEPS(readings_not_past, "time since 5", SAMPLE, SET(tasks[7].since, 5)),
    KEEPS(readings_not_past, "LINK since 5", SAMPLE, SET(tasks[9].since, 5)),
    KEEPS(readings_not_past, "CHECK since 5", SAMPLE, SET(tasks[10].since, 5)),
    KEEPS(readings_not_past, "ending since 5", SAMPLE, SET(tasks[1].since, 5)),
    KEEPS(readings_not_past, "core since 4", SAMPLE, SET(tasks[18].since, 4)),
    KEEPS(readings_not_past, "core since 0", SAMPLE, SET(tasks[3].since, 0)),
    KEEPS(readings_not_past, "events since 0", SAMPLE, SET(tasks[5].since, 0)),
    KEEPS(readings_not_past, "time since 0", SAMPLE, SET(tasks[7].since, 0)),
    KEEPS(readings_not_past, "LINK since 0", SAMPLE, SET(tasks[9].since, 0)),
    KEEPS(readings_not_past, "CHECK since 0", SAMPLE, SET(tasks[10].since, 0)),
    KEEPS(readings_not_past, "ending since 0", SAMPLE, SET(tasks[1].since, 0)),
    KEEPS(readings_not_past, "the first of a queue since 4, the next since 2", SAMPLE,
          SET(tasks[5].since, 4)),
    KEEPS(readings_not_past, "the clock is 6", SAMPLE, SET(clock, 6)),
    KEEPS(readings_not_past, "the clock is at its end", SAMPLE, SET(clock, UINT32_MAX)),
    KEEPS(readings_not_past, "LINK since 0, and the clock is 0", CHAIN, NOTHING),
    KEEPS(readings_not_past, "LINK since the clock's end", CHAIN,
          SET(tasks[23].since, UINT32_MAX), SET(clock, UINT32_MAX)),

    /* The times are 50, 60 and 70, of the tasks 7, 11 and 8. The requests 4, 5
       and 2 are of the levels 1, 1 and 3; task 2 is of level 2, 12 of 3. */
    BREAKS(time_queue_by_time, "61, 60, 70", SAMPLE, SET(tasks[7].time, 61)),
    BREAKS(time_queue_by_time, "50, 71, 70", SAMPLE, SET(tasks[11].time, 71)),
    BREAKS(time_queue_by_time, "50, 60, 59", SAMPLE, SET(tasks[8].time, 59)),
    KEEPS(time_queue_by_time, "60, 60, 70", SAMPLE, SET(tasks[7].time, 60)),
    KEEPS(time_queue_by_time, "50, 60, 60", SAMPLE, SET(tasks[8].time, 60)),
    BREAKS(channel_queue_by_level, "2, 1, 3", SAMPLE, SET(requests[4].owner, 2)),
    BREAKS(channel_queue_by_level, "3, 1, 3", SAMPLE, SET(requests[4].owner, 12)),
    BREAKS(channel_queue_by_level, "1, 3, 2", SAMPLE, SET(requests[5].owner, 1),
           SET(requests[2].owner, 2)),
    KEEPS(channel_queue_by_level, "1, 2, 3", SAMPLE, SET(requests[5].owner, 2)),
    KEEPS(channel_queue_by_level, "1, 3, 3", SAMPLE, SET(requests[5].owner, 12)),

    /* Level 1: the modules 0, 1 and 4; level 2: 2 and 6; level 3: 3, 5, 7. */
    BREAKS(queues_hold_own_level, "a ready one of level 1 is of 3", SAMPLE,
           SET(tasks[15].program, 7)),
    BREAKS(queues_hold_own_level, "a core waiter of level 1 is of 3", SAMPLE,
           SET(tasks[17].program, 5)),
    BREAKS(queues_hold_own_level, "a core waiter of level 1 is of 2", SAMPLE,
           SET(tasks[17].program, 2)),
    BREAKS_TOO(queues_hold_own_level, no_first_waiter_fits,
               "a core waiter of level 3 is of 1", SAMPLE, SET(tasks[18].program, 4)),
    BREAKS(queues_hold_own_level, "a second core waiter of level 2 is of 3", SAMPLE,
           SET(tasks[4].program, 5)),
    KEEPS(queues_hold_own_level, "one in LINK is of level 3", SAMPLE, SET(tasks[9].program, 7)),
    KEEPS(queues_hold_own_level, "a time waiter is of level 3", SAMPLE,
          SET(tasks[7].program, 5)),

    /* A module has a unit less than the run of its task, or one more. The
       library keeps a run's start, so that the units granted are then wrong. */
    BREAKS_TOO(runs_have_length, core_adds_up, "7 units, and 8 are granted", SAMPLE,
               SET(directory.entries[1].units, 7)),
    BREAKS_TOO(runs_have_length, core_adds_up, "59 units, and 60 are granted", SAMPLE,
               SET(directory.entries[2].units, 59)),
    BREAKS_TOO(runs_have_length, core_adds_up, "61 units, and 60 are granted", SAMPLE,
               SET(directory.entries[2].units, 61)),
    BREAKS_TOO(runs_have_length, core_adds_up, "3 units, and 4 are granted", SAMPLE,
               SET(directory.entries[3].units, 3)),
    KEEPS(runs_have_length, "3 units, and 3 are granted", SAMPLE,
          SET(directory.entries[3].units, 3), SET(pools[3], 0x77)),

    /* Core waiters that have given theirs back; a task in LINK, the running
       one, a ready one and an ending one that need core. */
    BREAKS(core_need_in_place, "a core waiter has given its core back", SAMPLE,
           SET(tasks[4].core, CORE_GIVEN_BACK)),
    BREAKS(core_need_in_place, "the first of level 1 has", SAMPLE,
           SET(tasks[17].core, CORE_GIVEN_BACK)),
    BREAKS(core_need_in_place, "the first of level 3 has", SAMPLE,
           SET(tasks[18].core, CORE_GIVEN_BACK)),
    BREAKS(core_need_in_place, "one in LINK needs core", SAMPLE, SET(tasks[9].program, 1)),
    BREAKS(core_need_in_place, "the running one needs core", SAMPLE, SET(tasks[14].program, 1)),
    BREAKS(core_need_in_place, "a ready one needs core", SAMPLE, SET(tasks[15].program, 1)),
    BREAKS(core_need_in_place, "an ending one needs core", SAMPLE,
           SET(tasks[1].core, CORE_NONE_YET), SET(pools[3], 0xf0)),
    KEEPS(core_need_in_place, "an event waiter needs core", SAMPLE, SET(tasks[6].program, 1)),
    KEEPS(core_need_in_place, "a time waiter needs core", SAMPLE, SET(tasks[7].program, 1)),
    KEEPS(core_need_in_place, "one that had given its core back needs it", SAMPLE,
          SET(tasks[11].core, CORE_NONE_YET)),

    BREAKS(event_waiters_pass, "three of two events", SAMPLE, SET(tasks[5].count, 3)),
    BREAKS_TOO(event_waiters_pass, fields_in_range, "258 of two events", SAMPLE,
               SET(tasks[5].count, 258)),
    BREAKS_TOO(event_waiters_pass, no_condition_holds, "none of two events", SAMPLE,
               SET(tasks[5].count, 0)),
    BREAKS(event_waiters_pass, "two of an event", SAMPLE, SET(tasks[6].count, 2)),
    BREAKS(event_waiters_pass, "one of no event", SAMPLE, SET(tasks[6].events, 0)),
    BREAKS(event_waiters_pass, "one of 3 and 8, which is not defined", SAMPLE,
           SET(tasks[6].events, 264)),
    BREAKS(event_waiters_pass, "3 is no more defined", SAMPLE, SET(directory.defined, 247)),
    KEEPS(event_waiters_pass, "one of 3 and 7", SAMPLE, SET(tasks[6].events, 136)),
    KEEPS(event_waiters_pass, "two of 1, 2 and 3", SAMPLE, SET(tasks[5].events, 14)),
    KEEPS(event_waiters_pass, "1, 2 and 3 alone are defined", SAMPLE, SET(directory.defined, 14)),

    BREAKS(links_agree, "one in LINK has no child", SAMPLE, SET(tasks[14].parent, 0)),
    BREAKS(links_agree, "the one in LINK has two, the other none", SAMPLE,
           SET(tasks[14].parent, 9)),
    BREAKS(links_agree, "one in LINK has two children", SAMPLE, SET(tasks[15].parent, 13)),
    BREAKS(links_agree, "a parent is ready", SAMPLE, SET(tasks[15].parent, 16)),
    BREAKS(links_agree, "a parent is free", SAMPLE, SET(tasks[15].parent, 24)),
    KEEPS(links_agree, "15 is the child of 13, and 14 is nobody's", SAMPLE,
          PARENTS(0, 9, 0), SET(tasks[15].parent, 13)),

    /* In the sample the requests 1 (done) and 2 (queued) are of task 1, which
       is ending; 3, on the channel, of 10, which is in CHECK for it; 4 and 5
       (queued) of 11 and 14. */
    BREAKS(owners_used, "nobody's", SAMPLE, SET(requests[1].owner, 0)),
    BREAKS(owners_used, "the lowest free task's", SAMPLE, SET(requests[1].owner, 19)),
    BREAKS(owners_used, "the last free task's", SAMPLE, SET(requests[5].owner, 24)),
    KEEPS(owners_used, "the last used task's", SAMPLE, SET(requests[1].owner, 18)),

    BREAKS(check_waits_for_own, "for none", SAMPLE, SET(tasks[10].request, 0)),
    BREAKS(check_waits_for_own, "for a free one", SAMPLE, SET(tasks[10].request, 6)),
    BREAKS(check_waits_for_own, "for another's", SAMPLE, SET(tasks[10].request, 5)),
    BREAKS(check_waits_for_own, "for another's on the channel", SAMPLE,
           SET(requests[3].owner, 11)),
    BREAKS(check_waits_for_own, "for an own one that is done", SAMPLE, AWAITED(1, 10)),
    KEEPS(check_waits_for_own, "for an own one that is queued", SAMPLE, AWAITED(4, 10)),

    BREAKS(ending_has_pending, "one that is done, alone", SAMPLE, SET(requests[2].owner, 12)),
    BREAKS(ending_has_pending, "none", SAMPLE, SET(requests[1].owner, 12),
           SET(requests[2].owner, 12)),
    BREAKS(ending_has_pending, "another's is on the channel", SAMPLE, ENDS(14)),
    KEEPS(ending_has_pending, "one that is done, and another", SAMPLE,
          SET(requests[5].owner, 1), SET(requests[2].owner, 12)),
    KEEPS(ending_has_pending, "its own is on the channel", SAMPLE, ENDS(10)),

    BREAKS(no_queue_behind_empty, "request 3 is done, three are queued", SAMPLE,
           AWAITED(4, 10), SET(requests[3].place, DONE), SET(channel, 0)),
    BREAKS(no_queue_behind_empty, "one of level 1 is queued", LOADED, NOTHING_ON(1, 1, 0xff)),
    BREAKS(no_queue_behind_empty, "one of level 2 is queued", LOADED, NOTHING_ON(6, 2, 0xf)),
    BREAKS(no_queue_behind_empty, "one of level 3 is queued", LOADED, NOTHING_ON(3, 3, 0xf)),
    KEEPS(no_queue_behind_empty, "one of level 1 is on the channel", LOADED, READS(1, 1, 0xff)),
    KEEPS(no_queue_behind_empty, "one of level 2 is on the channel", LOADED, READS(6, 2, 0xf)),
    KEEPS(no_queue_behind_empty, "one of level 3 is on the channel", LOADED, READS(3, 3, 0xf)),
};

const size_t rule_cases_count = sizeof rule_cases / sizeof rule_cases[0];
