/* The second program's table check, with a switch, so that one program can play
   it with its check and without. */
#define rules_broken every_rule_broken
#include "rules.c"
#undef rules_broken

#include "rules_switch.h"

const char *rules_broken(const struct executive *executive);

int rules_are_checked = 0;

const char *rules_broken(const struct executive *executive)
{
    return rules_are_checked ? every_rule_broken(executive) : NULL;
}
