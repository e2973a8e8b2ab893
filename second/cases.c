/* Holds the proved library and this program to the named cases: tables that
   break a rule or keep them all, and calls on either side of a refusal's line.
   Then tables of random bytes are judged by both.

   usage: cases TABLES   so many tables of random bytes */
#include "beside.h"
#include "cases.h"
#include "random.h"

#include <stdio.h>
#include <stdlib.h>
#include <string.h>

static unsigned long differ;

static void differs(const char *of, const char *name, const char *what)
{
    differ++;
    fprintf(stderr, "cases: %s: %s: %s\n", of, name, what);
}

/* The tables made by hand are those that calls on the library lead to. They are
   the same by either rule of the grants, but for the rule. */
static void try_samples(enum holes holes)
{
    static const char *const names[] = {"loaded", "the sample", "the chain"};
    for (enum base base = LOADED; base <= CHAIN; base++) {
        struct khilzurgee_tables reached;
        struct khilzurgee_tables made = tables_of(base);
        made.holes = holes;
        if (!tables_reached(&reached, base, holes)) {
            differs("calls", names[base], "one is refused");
        } else if (memcmp(&made, &reached, sizeof made) != 0) {
            differs("calls", names[base], "they lead to other tables");
        }
    }
}

/* A refused load, by either rule: "all-zero tables". */
static void try_refused_loads(void)
{
    static const struct khilzurgee_tables zero;
    const uint8_t image[IMAGE_LENGTH] = {0};
    struct khilzurgee_tables tables = tables_of(SAMPLE);
    struct khilzurgee_tables lowest = tables_of(SAMPLE);
    if (khilzurgee_load(&tables, image, IMAGE_LENGTH).refusal != 2
        || khilzurgee_load_lowest(&lowest, image, IMAGE_LENGTH).refusal != 2) {
        differs("loads", "512 zero bytes", "they are not refused by 2");
    }
    if (memcmp(&tables, &zero, sizeof zero) != 0
        || memcmp(&lowest, &zero, sizeof zero) != 0) {
        differs("loads", "512 zero bytes", "they leave other tables than zero");
    }
}

/* One case of a table rule. A call of zero bytes is answered 9 where the tables
   break a rule, and else 24, for no call has the code 0. */
static void try_rule(const struct rule_case *tried)
{
    const uint8_t bytes[CALL_LENGTH] = {0};
    struct khilzurgee_tables tables = tables_of(tried->from);
    tables_edit(&tables, tried->edits, EDITS_MOST);
    struct beside said = beside(&tables, bytes, CALL_LENGTH);
    if (said.line.refusal != (tried->found != NULL ? 9 : 24)) {
        differs(tried->rule, tried->name, "the library's answer is wrong");
    } else if (said.differs != NULL) {
        differs(tried->rule, tried->name, said.differs);
    } else if ((tried->found == NULL) != (said.rule == NULL)) {
        differs(tried->rule, tried->name, "this program's rules differ");
    } else if (said.rule != NULL && strcmp(tried->found, said.rule) != 0) {
        differs(tried->rule, tried->name, said.rule);
    }
}

/* Each rule has to be broken three times or more, and kept by a neighbour. */
static void try_enough(const char *rule)
{
    int broken = 0;
    int kept = 0;
    for (size_t i = 0; i < rule_cases_count; i++) {
        if (strcmp(rule_cases[i].rule, rule) == 0) {
            broken += rule_cases[i].found != NULL;
            kept += rule_cases[i].found == NULL;
        }
    }
    if (broken < 3 || kept < 1) {
        differs(rule, "all cases", "they are too few");
    }
}

/* Tries the first bytes of a call; is the refusal the one expected? */
static int refused(const struct khilzurgee_tables *tables, struct call call,
                   size_t length, int refusal, struct beside *said)
{
    uint8_t bytes[CALL_LENGTH + 1] = {0};
    call_put(&call, bytes);
    *said = beside(tables, bytes, length);
    return said->line.refusal == refusal
        && (said->rule != NULL) == (refusal == 9);
}

/* One case of the refusals. */
static void try_refusal(const struct refusal_case *tried)
{
    struct beside said;
    struct khilzurgee_tables tables = tables_of(tried->on);
    struct khilzurgee_tables seen;
    tables_edit(&tables, tried->edits, EDITS_MOST);
    if (!refused(&tables, tried->call, tried->length, tried->refusal, &said)) {
        differs("refusals", tried->name, "the library's answer is wrong");
    } else if (said.differs != NULL) {
        differs("refusals", tried->name, said.differs);
    } else if (tried->result != 0 && said.line.result != tried->result) {
        differs("refusals", tried->name, "the library's result is wrong");
    }
    seen = said.after;
    tables_edit(&seen, tried->seen, SEEN_MOST);
    if (memcmp(&seen, &said.after, sizeof seen) != 0) {
        differs("refusals", tried->name, "a field is not what it should be");
    }
}

/* Every code, while a task runs and while none does. */
static void try_code(int code)
{
    char name[32];
    char letter = (size_t)code < strlen(code_letters) ? code_letters[code] : '-';
    const struct call call = {(uint8_t)code, 0, 0, 0, 0, 0};
    struct khilzurgee_tables usual = tables_of(USUAL);
    struct khilzurgee_tables idle = tables_of(IDLE);
    struct beside runs;
    struct beside rests;
    refused(&usual, call, CALL_LENGTH, 0, &runs);
    refused(&idle, call, CALL_LENGTH, 0, &rests);
    snprintf(name, sizeof name, "code %d", code);
    if (runs.differs != NULL || rests.differs != NULL) {
        differs("codes", name, "the two differ");
    }
    if ((runs.line.refusal == 24) != (letter == '-')
        || (rests.line.refusal == 24) != (letter == '-')
        || (rests.line.refusal == 11) != (letter == 't')) {
        differs("codes", name, "the library's answer is wrong");
    }
}

/* Tables of random bytes; every second one with a good directory, and so with
   more that can be looked at. */
static void try_random(unsigned long count)
{
    const struct khilzurgee_tables loaded = tables_of(LOADED);
    const uint8_t bytes[CALL_LENGTH] = {0};
    struct random random;
    random_seed(&random, 1);
    for (unsigned long i = 0; i < count; i++) {
        struct khilzurgee_tables tables;
        uint8_t *byte = (uint8_t *)&tables;
        for (size_t at = 0; at < sizeof tables; at += 8) {
            number_put(byte + at, 8, random_next(&random));
        }
        if (i % 2 == 1) {
            tables.directory = loaded.directory;
        }
        struct beside said = beside(&tables, bytes, CALL_LENGTH);
        if (said.rule == NULL || said.differs != NULL) {
            differs("random bytes", "tables", "they are not answered 9");
        }
    }
}

int main(int count, char **arguments)
{
    unsigned long breaks = 0;
    if (count != 2) {
        fprintf(stderr, "usage: cases TABLES\n");
        return 2;
    }
    unsigned long tables = strtoul(arguments[1], NULL, 10);
    try_samples(SMALLEST_HOLE);
    try_samples(LOWEST_START);
    try_refused_loads();
    for (size_t i = 0; i < rule_cases_count; i++) {
        try_rule(&rule_cases[i]);
        try_enough(rule_cases[i].rule);
        breaks += rule_cases[i].found != NULL;
    }
    for (size_t i = 0; i < refusal_cases_count; i++) {
        try_refusal(&refusal_cases[i]);
    }
    for (int code = 0; code < 256; code++) {
        try_code(code);
    }
    try_random(tables);
    printf("cases: %lu tables that break a rule, %lu that keep all, %lu calls, "
           "256 codes, %lu tables of random bytes: %lu differ\n", breaks,
           (unsigned long)rule_cases_count - breaks,
           (unsigned long)refusal_cases_count, tables, differ);
    return differ != 0;
}
