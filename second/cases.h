/* Named cases: tables and calls made by hand, with what the papers say of
   them: document 01, and document 02 for what has landed of it. */
#ifndef CASES_H
#define CASES_H

#include "tables.h"

/* A field of the library's tables gets a number. Size 0 ends a list. */
struct edit {
    size_t at;
    size_t size;
    uint64_t number;
};
#define SET(field, number)                         \
    {offsetof(struct khilzurgee_tables, field),    \
     sizeof ((struct khilzurgee_tables *)0)->field, number}
#define NOTHING {0, 0, 0}

/* The tables that are edited, and those that are called on. The calls that
   lead to the first three stand in samples.c. */
enum base {
    LOADED, /* just loaded */
    SAMPLE, /* a block in every place */
    CHAIN,  /* 24 tasks, all but the last in LINK for the next */
    USUAL,  /* task 1 runs, and holds requests; 2 is ready */
    IDLE,   /* no task runs */
    FULL,   /* no block is free, nothing is on the channel; clock 1 */
    LAST    /* the last blocks are free; the clock is one before its end */
};

/* One case of a table rule. */
enum { EDITS_MOST = 20 };
struct rule_case {
    const char *rule;  /* the rule that it is of */
    const char *found; /* the first rule that it breaks, in this program's
                          order; NULL if it keeps them all */
    const char *name;
    enum base from;
    struct edit edits[EDITS_MOST];
};
extern const struct rule_case rule_cases[];
extern const size_t rule_cases_count;

/* One case of a row of the refusals, or of none of them; or of the answers of
   TEST EVENT; or of the clock readings of those who wait; or of a grant. */
enum { SEEN_MOST = 4 };
struct refusal_case {
    int refusal;
    const char *name;
    enum base on;
    struct call call;
    struct edit edits[EDITS_MOST]; /* of the tables, before the call */
    size_t length;                 /* so many bytes of the call */
    struct edit seen[SEEN_MOST];   /* what the fields are afterwards */
    int result;                    /* 0 where it is not looked at */
};
extern const struct refusal_case refusal_cases[];
extern const size_t refusal_cases_count;

/* For each code from 0: '-' unknown, 'k' known, 't' known and needs a running
   task. The codes behind these are unknown. */
extern const char code_letters[];

/* samples.c */
struct khilzurgee_tables tables_of(enum base base);
void tables_edit(struct khilzurgee_tables *tables, const struct edit *edits,
                 size_t count);

/* What the library's tables are after the calls that lead to these, from a
   load of their directory, by the rule of the grants: of LOADED, SAMPLE and
   CHAIN. 0 if a call of them is refused. */
int tables_reached(struct khilzurgee_tables *tables, enum base base,
                   enum holes holes);

#endif
