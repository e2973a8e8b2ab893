/* The executive for programs in C and C++: the image check, a block's check,
   two loads and one call, on tables that the caller owns.

   A phase image is one block of 512 bytes, numbers little-endian:

       0          form, 1
       1          M, modules, 1 to 32
       2          N, cycles between looks at the time queue, 1 to 255
       3-7        zero
       8-15       defined events
       16-271     32 entries of 8 bytes: level 1 to 3, core units 0 to 64,
                  flags 0 or 1, zero, entry point in 4 bytes;
                  entries from M on are all zero
       272-509    zero
       510-511    check: 1 plus the remainder by 65,521 of the sum of
                  (i+1) times byte i, i from 0 to 509

   A station links target/staticlib/libexecutive.a, which
   '.ci/library executive' writes; it has all five functions. A program that
   needs the two checks alone, as the editor, links the small
   target/staticlib/libimage.a, which '.ci/library image' writes. Link one of
   the two and not both: each has the two checks. Both are for x86-64 Linux
   and need nothing but the C library.

   The stack: a call was measured to take up to 45,928 bytes of it, a load
   2,088 and the image check 904. 'bench/stack' measures it again, and fails
   where a function takes more than 40 KiB, as a call does today. */
#ifndef KHILZURGEE_H
#define KHILZURGEE_H

#include <stddef.h>
#include <stdint.h>

#ifdef __cplusplus
extern "C" {
#endif

enum {
    KHILZURGEE_IMAGE_LENGTH = 512
};

/* What the check answers. Where several apply it is the lowest. */
enum khilzurgee_answer {
    KHILZURGEE_ACCEPTED = 0,    /* loading would accept the image */
    KHILZURGEE_BAD_LENGTH = 1,  /* the length is not 512 */
    KHILZURGEE_BAD_CHECK = 2,   /* bytes 510-511 are not the check of the rest */
    KHILZURGEE_BAD_FORM = 3,    /* byte 0 is not 1 */
    KHILZURGEE_BAD_MODULES = 4, /* M is not 1 to 32 */
    KHILZURGEE_BAD_CYCLES = 5,  /* N is not 1 to 255 */
    KHILZURGEE_BAD_ENTRY = 6,   /* a used entry, 0 to M-1, has a bad level,
                                   units or flags */
    KHILZURGEE_NOT_ZERO = 7     /* a byte that has to be zero is not: 3-7,
                                   272-509, the fourth of any entry, or
                                   anything in an unused entry */
};

/* Answers one of the numbers above: what loading these bytes would answer.

   bytes    the image: where its first byte lies. It has to point to 'length'
            bytes that can be read. It is not to be NULL, not even with
            length 0: give the address of anything then.
   length   how many bytes there are. Any length will do, 0 too; all but
            512 are answered by KHILZURGEE_BAD_LENGTH.

   It reads none but these bytes, writes nothing, keeps nothing and always
   returns. Several threads can call it at once, on the same bytes too, as
   long as nobody changes them meanwhile.

   The answer is proved, for every image and every length. That 'bytes' and
   'length' belong together is for the caller to see to. */
uint8_t khilzurgee_image_check(const uint8_t *bytes, size_t length);

/* Answers the check that a block has to end with, 1 to 65,521, for a program
   that makes or changes one: its low byte belongs in byte 510, its high byte
   in byte 511. The bytes that stand there are not looked at.

   block    as 'bytes' above
   length   as above; all but 512 are answered by 0, which is no block's check.

   It too reads none but these bytes, writes nothing, keeps nothing and always
   returns, and its answer is proved. Neither check multiplies for a byte, for
   processors that multiply slowly: 'editor/multiplications' looks for that in
   the machine code. */
uint16_t khilzurgee_block_check(const uint8_t *block, size_t length);

/* ---- the tables

   One set of tables is the whole state of an executive. A caller owns them;
   nothing is kept anywhere else. They are declared so that a station can look
   into them; only the three functions below should change them.

   They are 1,144 bytes, and every byte is a field's: no pointer, and no byte
   between two fields or behind the last. So they can be copied, stored and
   compared as bytes: equal tables are equal bytes (memcmp). The fields have to
   be aligned to 8, as the compiler aligns every object of this type. Bytes
   that lie elsewhere, as in a buffer that was read from a file, are copied into
   such an object (memcpy) first: the functions take for granted that the
   address can be divided by 8.

   Stored tables are the bytes of this struct, on a little-endian machine. Keep
   KHILZURGEE_TABLES_VERSION beside them, and read back none of another version:
   it changes with the layout. Tables of version 3, which have 1,136 bytes, do
   not say by which rule their grants go. The length does not tell versions apart:
   tables of version 2 have 1,136 bytes too. Nothing else need be checked, for the
   tables may hold anything.

   Block 0 names no block, level 0 no level: slot 0 of 'tasks', 'requests' and
   'pools' is not used, and is zero. */

/* The form of stored tables. */
#define KHILZURGEE_TABLES_VERSION 4

enum {
    KHILZURGEE_TABLES_LENGTH = 1144,
    KHILZURGEE_CALL_LENGTH = 16,
    KHILZURGEE_MODULES = 32,
    KHILZURGEE_TASKS = 24,
    KHILZURGEE_REQUESTS = 16,
    KHILZURGEE_LEVELS = 3,
    KHILZURGEE_QUEUES = 9
};

/* A module, as in the image. */
struct khilzurgee_entry {
    uint8_t level;  /* 1 (best) to 3 */
    uint8_t units;  /* of core, 0 to 64 */
    uint16_t flags; /* 1 is reentrant */
    uint32_t point;
};

struct khilzurgee_directory {
    uint64_t defined; /* bit e for event e */
    struct khilzurgee_entry entries[KHILZURGEE_MODULES];
    uint32_t modules; /* M */
    uint32_t every;   /* N */
};

/* Where a task block is. The task waits in 3 to 8, and 'since' of its block is
   the clock reading at which it entered that place: it has waited there for
   clock - since cycles. Going from one of these places to another sets it anew;
   being passed over in a queue changes nothing.

   Where the task does not wait, 'since' is 0. A wait that began at clock 0 reads
   0 too: the place says whether a task waits, and not the reading. */
enum khilzurgee_place {
    KHILZURGEE_PLACE_FREE = 0,    /* the block is nobody's */
    KHILZURGEE_PLACE_RUNNING = 1, /* the running task's */
    KHILZURGEE_PLACE_READY = 2,   /* in the ready queue of its level */
    KHILZURGEE_PLACE_CORE = 3,    /* waits in the core queue of its level */
    KHILZURGEE_PLACE_EVENT = 4,   /* waits in the event queue */
    KHILZURGEE_PLACE_TIME = 5,    /* waits in the time queue */
    KHILZURGEE_PLACE_LINK = 6,    /* waits in LINK, for its child */
    KHILZURGEE_PLACE_CHECK = 7,   /* waits in CHECK, for a request of its own */
    KHILZURGEE_PLACE_ENDING = 8   /* waits as ending, for its last request */
};

struct khilzurgee_task {
    uint64_t events; /* and 'count' of them: the condition of an event waiter */
    uint32_t time;   /* the condition of a time waiter */
    uint32_t since;  /* when the task entered the place in which it waits, by the
                        clock and never past it; 0 where it does not wait */
    uint16_t count;
    uint8_t program; /* the number of its module */
    uint8_t request; /* what a task in CHECK waits for */
    uint8_t place;   /* one of enum khilzurgee_place */
    uint8_t parent;
    uint8_t core;    /* 0 not granted, 1 holds its run, 2 given back */
    uint8_t start;   /* of its run */
};

struct khilzurgee_request {
    uint8_t place; /* 0 free, 1 queued, 2 on the channel, 3 done */
    uint8_t owner;
    uint8_t device;
    uint8_t command; /* the call's code, 13 or 14 */
    uint16_t bytes;
};

/* The queues: task block k is the number k, request block r the number 24 + r.
   Queue 0 is the event queue, 1 to 3 are the ready queues of the levels, 4 to
   6 their core queues, 7 is the time queue, 8 the channel queue. */
struct khilzurgee_threads {
    uint8_t fwd[KHILZURGEE_TASKS + KHILZURGEE_REQUESTS + 1];
    uint8_t back[KHILZURGEE_TASKS + KHILZURGEE_REQUESTS + 1];
    uint8_t first[KHILZURGEE_QUEUES];
    uint8_t last[KHILZURGEE_QUEUES];
};

/* Which start a grant of core units takes, in the pool of the task's level. The
   load says it, and no call changes it. A hole is a whole free run, between used
   units or the pool's ends. The rule for who waits is the same by both: behind
   others, or where no free run is long enough. */
enum khilzurgee_holes {
    KHILZURGEE_LOWEST_START = 0, /* the lowest start at which enough are free:
                                    document 01's rule, khilzurgee_load_lowest */
    KHILZURGEE_SMALLEST_HOLE = 1 /* the start of the shortest hole that is long
                                    enough, the lowest of equals: document 02's
                                    rule, khilzurgee_load */
};

struct khilzurgee_tables {
    struct khilzurgee_directory directory;
    uint64_t on;        /* the events that are on; each was signalled */
    uint64_t signalled; /* the events of which a SIGNAL, on or off, was accepted
                           since the load; each is defined */
    uint64_t pools[KHILZURGEE_LEVELS + 1]; /* the granted units of each level */
    struct khilzurgee_task tasks[KHILZURGEE_TASKS + 1];
    uint32_t clock;
    uint32_t free_tasks;    /* the free task blocks, bit k for block k */
    uint32_t free_requests; /* the free request blocks */
    struct khilzurgee_request requests[KHILZURGEE_REQUESTS + 1];
    uint8_t running; /* the running task, 0 if idle */
    uint8_t channel; /* the request on the channel, 0 if none */
    struct khilzurgee_threads threads;
    uint64_t holes; /* one of enum khilzurgee_holes */
};

/* Why a call is refused: the first number of its answer. They stand in the
   order in which they are looked at; where several apply, the first is given.
   The station's document 01 has all but 25, which is document 02's. */
enum khilzurgee_refusal {
    KHILZURGEE_TABLES_BROKEN = 9,     /* the tables break the table rules */
    KHILZURGEE_NOT_16_BYTES = 10,     /* it is not 16 bytes */
    KHILZURGEE_NO_CODE = 24,          /* there is no such code */
    KHILZURGEE_NOBODY_RUNS = 11,      /* a running task is needed and none is */
    KHILZURGEE_CORE_UNDER_READ = 25,  /* FREEMAIN while a request of the caller
                                         is queued or on the channel */
    KHILZURGEE_NO_MODULE = 12,        /* there is no such module */
    KHILZURGEE_NO_EVENT = 19,         /* the event is undefined or above 63 */
    KHILZURGEE_NO_DEVICE = 22,        /* the device is above 249 */
    KHILZURGEE_BAD_AMOUNT = 23,       /* the byte count is 0 or above 65535, or
                                         SIGNAL's value is not 0 or 1 */
    KHILZURGEE_NOT_HELD = 18,         /* the caller does not hold that request
                                         block */
    KHILZURGEE_BAD_KIND = 13,         /* the kind is not one of this call, or an
                                         event is undefined */
    KHILZURGEE_BAD_COUNT = 14,        /* the count is 0 or more than the events
                                         in the set */
    KHILZURGEE_PAST_CLOCK_END = 15,   /* the clock plus the interval passes the
                                         clock's end */
    KHILZURGEE_NO_TASK_BLOCK = 16,    /* all 24 task blocks are in use */
    KHILZURGEE_NO_REQUEST_BLOCK = 17, /* all 16 request blocks are in use */
    KHILZURGEE_CHANNEL_EMPTY = 20,    /* nothing is on the channel */
    KHILZURGEE_CLOCK_AT_END = 21      /* the clock is at its end */
};

/* What is known of a defined event: the result of an accepted TEST EVENT. An
   undefined one is refused by KHILZURGEE_NO_EVENT. The station's document 01
   has 1 and 2; 3 is document 02's.

   An event that was never signalled is not off: nothing was said of it yet, so
   there may be a fault or none. A refused SIGNAL says nothing either. Who waits
   for it waits as for one that is off. */
enum khilzurgee_event {
    KHILZURGEE_EVENT_OFF = 1,            /* its last accepted SIGNAL was off */
    KHILZURGEE_EVENT_ON = 2,             /* its last accepted SIGNAL was on */
    KHILZURGEE_EVENT_NEVER_SIGNALLED = 3 /* no SIGNAL of it, on or off, was
                                            accepted since the load */
};

/* The three numbers of an answer, as the desk prints them. */
struct khilzurgee_line {
    uint8_t refusal; /* 0 if accepted; of a call one of enum
                        khilzurgee_refusal, of an image one of enum
                        khilzurgee_answer */
    uint8_t result;  /* 0 if refused; of an accepted TEST EVENT one of enum
                        khilzurgee_event */
    uint8_t running; /* the running task afterwards, 0 if idle */
};

/* The layout that the library has, and that this compiler has to give. Each
   field begins where the one before it ends, and the struct ends where its last
   field does: so no byte is left between them. */
#ifdef __cplusplus
#define KHILZURGEE_IS(a, b) static_assert((a) == (b), #a " is not " #b)
#else
#define KHILZURGEE_IS(a, b) _Static_assert((a) == (b), #a " is not " #b)
#endif
#define KHILZURGEE_END(s, field) \
    (offsetof(struct s, field) + sizeof(((struct s *)0)->field))
#define KHILZURGEE_FIRST(s, field) KHILZURGEE_IS(offsetof(struct s, field), 0)
#define KHILZURGEE_NEXT(s, before, field, at)                        \
    KHILZURGEE_IS(offsetof(struct s, field), at);                    \
    KHILZURGEE_IS(offsetof(struct s, field), KHILZURGEE_END(s, before))
#define KHILZURGEE_LAST(s, field, size)                              \
    KHILZURGEE_IS(sizeof(struct s), size);                           \
    KHILZURGEE_IS(sizeof(struct s), KHILZURGEE_END(s, field))

KHILZURGEE_FIRST(khilzurgee_entry, level);
KHILZURGEE_NEXT(khilzurgee_entry, level, units, 1);
KHILZURGEE_NEXT(khilzurgee_entry, units, flags, 2);
KHILZURGEE_NEXT(khilzurgee_entry, flags, point, 4);
KHILZURGEE_LAST(khilzurgee_entry, point, 8);

KHILZURGEE_FIRST(khilzurgee_directory, defined);
KHILZURGEE_NEXT(khilzurgee_directory, defined, entries, 8);
KHILZURGEE_NEXT(khilzurgee_directory, entries, modules, 264);
KHILZURGEE_NEXT(khilzurgee_directory, modules, every, 268);
KHILZURGEE_LAST(khilzurgee_directory, every, 272);

KHILZURGEE_FIRST(khilzurgee_task, events);
KHILZURGEE_NEXT(khilzurgee_task, events, time, 8);
KHILZURGEE_NEXT(khilzurgee_task, time, since, 12);
KHILZURGEE_NEXT(khilzurgee_task, since, count, 16);
KHILZURGEE_NEXT(khilzurgee_task, count, program, 18);
KHILZURGEE_NEXT(khilzurgee_task, program, request, 19);
KHILZURGEE_NEXT(khilzurgee_task, request, place, 20);
KHILZURGEE_NEXT(khilzurgee_task, place, parent, 21);
KHILZURGEE_NEXT(khilzurgee_task, parent, core, 22);
KHILZURGEE_NEXT(khilzurgee_task, core, start, 23);
KHILZURGEE_LAST(khilzurgee_task, start, 24);

KHILZURGEE_FIRST(khilzurgee_request, place);
KHILZURGEE_NEXT(khilzurgee_request, place, owner, 1);
KHILZURGEE_NEXT(khilzurgee_request, owner, device, 2);
KHILZURGEE_NEXT(khilzurgee_request, device, command, 3);
KHILZURGEE_NEXT(khilzurgee_request, command, bytes, 4);
KHILZURGEE_LAST(khilzurgee_request, bytes, 6);

KHILZURGEE_FIRST(khilzurgee_threads, fwd);
KHILZURGEE_NEXT(khilzurgee_threads, fwd, back, 41);
KHILZURGEE_NEXT(khilzurgee_threads, back, first, 82);
KHILZURGEE_NEXT(khilzurgee_threads, first, last, 91);
KHILZURGEE_LAST(khilzurgee_threads, last, 100);

KHILZURGEE_FIRST(khilzurgee_tables, directory);
KHILZURGEE_NEXT(khilzurgee_tables, directory, on, 272);
KHILZURGEE_NEXT(khilzurgee_tables, on, signalled, 280);
KHILZURGEE_NEXT(khilzurgee_tables, signalled, pools, 288);
KHILZURGEE_NEXT(khilzurgee_tables, pools, tasks, 320);
KHILZURGEE_NEXT(khilzurgee_tables, tasks, clock, 920);
KHILZURGEE_NEXT(khilzurgee_tables, clock, free_tasks, 924);
KHILZURGEE_NEXT(khilzurgee_tables, free_tasks, free_requests, 928);
KHILZURGEE_NEXT(khilzurgee_tables, free_requests, requests, 932);
KHILZURGEE_NEXT(khilzurgee_tables, requests, running, 1034);
KHILZURGEE_NEXT(khilzurgee_tables, running, channel, 1035);
KHILZURGEE_NEXT(khilzurgee_tables, channel, threads, 1036);
KHILZURGEE_NEXT(khilzurgee_tables, threads, holes, 1136);
KHILZURGEE_LAST(khilzurgee_tables, holes, KHILZURGEE_TABLES_LENGTH);

KHILZURGEE_FIRST(khilzurgee_line, refusal);
KHILZURGEE_NEXT(khilzurgee_line, refusal, result, 1);
KHILZURGEE_NEXT(khilzurgee_line, result, running, 2);
KHILZURGEE_LAST(khilzurgee_line, running, 3);

#undef KHILZURGEE_LAST
#undef KHILZURGEE_NEXT
#undef KHILZURGEE_FIRST
#undef KHILZURGEE_END
#undef KHILZURGEE_IS

/* Loads an image into the caller's tables, whatever they held before, and
   answers refusal, M or 0, 0. The refusal is the number that the image check
   answers. Where it is 0 the tables are the loaded ones: the image's directory,
   no tasks, no event on and none signalled, clock 0, and grants go by the
   smallest hole. Where it is not they are all zero, to the last byte, and every
   call on them is refused by 9. Either way no byte of what they held is left.

   tables   where the tables lie; what they hold does not matter. Not NULL, and
            aligned to 8.
   image    the bytes, 'length' of them, as for the image check. They are not to
            lie within the tables.

   It reads none but these bytes, writes the tables alone, keeps nothing and
   always returns. The answer and the tables are proved, for any bytes and any
   length. */
struct khilzurgee_line khilzurgee_load(struct khilzurgee_tables *tables,
                                       const uint8_t *image, size_t length);

/* The old program, for recordings that were made before document 02's E8. All is
   as with khilzurgee_load, but where the image is accepted 'holes' is 0: grants
   go by the lowest start. khilzurgee_advance answers the calls on these tables
   too. */
struct khilzurgee_line khilzurgee_load_lowest(struct khilzurgee_tables *tables,
                                              const uint8_t *image, size_t length);

/* Answers one call, and leaves in the tables what they are after it. The answer
   is the three numbers of the desk's line. A refused call has result 0 and
   leaves every byte as it was. The tables may hold anything: where they break
   the table rules, as they never do after an accepted load and calls alone, the
   answer is 9 0 0. So a caller that stored its tables and read them back need
   not check them.

   tables   where the tables lie. Not NULL, and aligned to 8.
   call     the bytes of the call, 'length' of them: exactly 16, or the answer
            is 10. Not NULL, not even with length 0, and not within the tables.

   It reads none but these, writes the tables alone, keeps nothing, takes no
   memory but its stack (how much, says the top of this file) and always returns.
   Several threads can call it at once on tables of their own; one set of tables
   is for one thread at a time. The answer and the tables are proved, for any
   tables, any bytes and any length. */
struct khilzurgee_line khilzurgee_advance(struct khilzurgee_tables *tables,
                                          const uint8_t *call, size_t length);

#ifdef __cplusplus
}
#endif

#endif
