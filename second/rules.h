/* The table rules, and what is tested of each call. */
#ifndef RULES_H
#define RULES_H

#include "executive.h"

/* The words of the first table rule that the tables break; NULL if none. */
const char *rules_broken(const struct executive *executive);

#endif
