/* The tables of the proved library (../include/khilzurgee.h), beside this
   program's own. */
#ifndef TABLES_H
#define TABLES_H

#include "executive.h"
#include "khilzurgee.h"

/* Reads the library's tables as this program's. NULL if that can be done,
   else the words of the table rule that stands in the way: one on what only
   the library's tables have, as pointers and sets of free blocks. */
const char *tables_read(struct executive *executive,
                        const struct khilzurgee_tables *tables);

/* Writes this program's tables as the library's. What the library does not
   keep is lost: who holds a unit that no run has. */
void tables_write(struct khilzurgee_tables *tables,
                  const struct executive *executive);

#endif
