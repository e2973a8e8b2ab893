/* The 16 bytes of a call, read and written. */
#include "call.h"

#include "image.h"

/* "code, kind, number, value, a 4-byte amount, an 8-byte event set,
   little-endian" */
void call_get(struct call *call, const uint8_t *bytes)
{
    call->code = bytes[0];
    call->kind = bytes[1];
    call->number = bytes[2];
    call->value = bytes[3];
    call->amount = (uint32_t)number_get(bytes + 4, 4);
    call->set = number_get(bytes + 8, 8);
}

/* The same, the other way. */
void call_put(const struct call *call, uint8_t *bytes)
{
    bytes[0] = call->code;
    bytes[1] = call->kind;
    bytes[2] = call->number;
    bytes[3] = call->value;
    number_put(bytes + 4, 4, call->amount);
    number_put(bytes + 8, 8, call->set);
}
