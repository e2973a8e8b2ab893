/* "A call arrives as exactly 16 bytes: code, kind, number, value, a 4-byte
   amount, an 8-byte event set, little-endian." */
#ifndef CALL_H
#define CALL_H

#include <stddef.h>
#include <stdint.h>

enum { CALL_LENGTH = 16, CODES = 36 };

enum {
    FREEMAIN = 1,
    LINK = 5,
    END = 6,
    SCHEDULE = 7,
    WAIT = 8,
    SIGNAL = 9,
    TEST_EVENT = 10,
    DISPATCH_CHECK = 12,
    READ = 13,
    WRITE = 14,
    CHECK = 15,
    TIMER = 32,
    IO_DONE = 33,
    PROGRAM_CHECK = 34,
    OPERATOR_START = 35
};

/* The kinds of condition. */
enum { AT_ONCE = 0, ON_EVENTS = 1, AT_TIME = 2, AFTER_INTERVAL = 3 };

struct call {
    uint8_t code;
    uint8_t kind;
    uint8_t number;
    uint8_t value;
    uint32_t amount;
    uint64_t set;
};

void call_get(struct call *call, const uint8_t *bytes);
void call_put(const struct call *call, uint8_t *bytes);

#endif
