/* Wrong image checks and wrong block checks: the test has to find each of them
   out. */
#ifndef WRONG_H
#define WRONG_H

#include <stddef.h>
#include <stdint.h>

typedef int check_function(const uint8_t *bytes, size_t length);

/* The wrong image check of this name, or NULL where there is none. */
check_function *wrong_check(const char *name);

/* The wrong block check of this name, or NULL where there is none. */
check_function *wrong_block(const char *name);

#endif
