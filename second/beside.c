/* One call on the same tables, by the proved library and by this program. */
#include "beside.h"
#include "rules.h"

#include <string.h>

/* Tables that break a rule are answered 9, and stay to the last byte. */
static const char *differs_broken(const struct khilzurgee_tables *before,
                                  const struct beside *said)
{
    struct khilzurgee_line line = said->line;
    if (line.refusal != 9 || line.result != 0 || line.running != 0) {
        return "the library takes tables that break a rule";
    }
    if (memcmp(&said->after, before, sizeof *before) != 0) {
        return "an answer of 9 changes the tables";
    }
    return NULL;
}

/* Tables that break none: both answer the call alike, and leave the same. */
static const char *differs_unbroken(const struct beside *said,
                                    const struct executive *executive,
                                    struct answer answer)
{
    struct khilzurgee_line line = said->line;
    struct khilzurgee_tables own;
    if (line.refusal != answer.refusal || line.result != answer.result
        || line.running != answer.running) {
        return "the two answers differ";
    }
    tables_write(&own, executive);
    if (memcmp(&said->after, &own, sizeof own) != 0) {
        return "the two leave other tables";
    }
    return NULL;
}

struct beside beside(const struct khilzurgee_tables *tables,
                     const uint8_t *bytes, size_t length)
{
    struct beside said;
    struct executive executive;
    said.after = *tables;
    said.line = khilzurgee_advance(&said.after, bytes, length);
    said.rule = tables_read(&executive, tables);
    if (said.rule == NULL) {
        said.rule = rules_broken(&executive);
    }
    if (said.rule != NULL) {
        said.differs = differs_broken(tables, &said);
    } else {
        struct answer answer = executive_step(&executive, bytes, length);
        said.differs = differs_unbroken(&said, &executive, answer);
    }
    return said;
}
