/* What is tested of each grant. */
#ifndef GRANTS_H
#define GRANTS_H

#include "executive.h"

/* The words that a grant breaks, on the tables before it is made: the block gets
   its module's units from `start` on. NULL if none. */
const char *grant_broken(const struct executive *executive, int block,
                         int start);

/* Does it take the lowest start at which enough are free? */
int grant_is_lowest(const struct executive *executive, int block, int start);

#endif
