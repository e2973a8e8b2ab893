/* The switch of the second program's table check. */
#ifndef RULES_SWITCH_H
#define RULES_SWITCH_H

/* 1 if each call of the second program begins with the table check. */
extern int rules_are_checked;

#endif
