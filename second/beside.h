/* One call on the same tables, by the proved library and by this program. */
#ifndef BESIDE_H
#define BESIDE_H

#include "tables.h"

/* What the two say of it. */
struct beside {
    const char *rule;    /* the first table rule that is broken, by this
                            program; NULL if none */
    const char *differs; /* what the two don't agree on; NULL if nothing */
    struct khilzurgee_line line; /* the library's answer */
    struct khilzurgee_tables after; /* what it leaves */
};

/* Where the tables break a rule, the library has to answer 9 and to leave them
   as they were. Where they break none, both have to give the same answer and
   to leave the same tables. */
struct beside beside(const struct khilzurgee_tables *tables,
                     const uint8_t *bytes, size_t length);

#endif
