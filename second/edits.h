/* Edits of tables that a test makes, to see who notices. */
#ifndef EDITS_H
#define EDITS_H

#include "random.h"
#include "tables.h"

/* One field of the library's tables gets another value. */
void edit_field(struct khilzurgee_tables *tables, struct random *random);

/* Something of this program's tables changes as a whole, so that the pointers
   and sets that the library keeps of it agree: a block changes its place or
   its queue, a run, a condition, a clock reading, a parent or an owner becomes
   another, an event goes on or off or changes to or from never signalled, the
   grants have another rule. */
void edit_meaning(struct executive *executive, struct random *random);

#endif
