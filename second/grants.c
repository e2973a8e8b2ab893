/* What is tested of each grant, by another way than core.c takes: of any two
   units of the pool it is asked whether a hole lies between them. */
#include "grants.h"

/* Are the units from `start` on free, up to `end` and without it? */
static int all_free(const uint8_t *holder, int start, int end)
{
    int held = 0;
    for (int unit = start; unit < end; unit++) {
        held += holder[unit] != 0;
    }
    return held == 0;
}

/* Document 02, E8: an "unbroken free run" is whole: it has a held unit or the
   pool's end on each side. */
static int is_hole(const uint8_t *holder, int start, int end)
{
    return (start == 0 || holder[start - 1] != 0)
        && (end == UNITS || holder[end] != 0) && all_free(holder, start, end);
}

/* "the shortest [...] that is long enough, the lowest of equals": every hole is
   too short, or longer, or as long and not lower. */
static int is_smallest(const uint8_t *holder, int units, int start, int end)
{
    for (int other = 0; other < UNITS; other++) {
        for (int behind = other + 1; behind <= UNITS; behind++) {
            int length = behind - other;
            if (is_hole(holder, other, behind) && length >= units
                && length <= end - start
                && (length < end - start || other < start)) {
                return 0;
            }
        }
    }
    return 1;
}

/* "takes the start of the shortest unbroken free run that is long enough" */
static int takes_smallest(const uint8_t *holder, int units, int start)
{
    for (int end = start + units; end <= UNITS; end++) {
        if (is_hole(holder, start, end)) {
            return is_smallest(holder, units, start, end);
        }
    }
    return 0;
}

/* "the lowest start at which enough are free": no lower one has enough. */
static int takes_lowest(const uint8_t *holder, int units, int start)
{
    for (int lower = 0; lower < start; lower++) {
        if (all_free(holder, lower, lower + units)) {
            return 0;
        }
    }
    return start + units <= UNITS && all_free(holder, start, start + units);
}

int grant_is_lowest(const struct executive *executive, int block, int start)
{
    return takes_lowest(executive->holder[task_level(executive, block)],
                        task_module(executive, block)->units, start);
}

const char *grant_broken(const struct executive *executive, int block,
                         int start)
{
    if (executive->holes == LOWEST_START) {
        return grant_is_lowest(executive, block, start)
            ? NULL : "a grant takes the lowest start at which enough are free";
    }
    return takes_smallest(executive->holder[task_level(executive, block)],
                          task_module(executive, block)->units, start)
        ? NULL : "a grant takes the start of the smallest hole that is enough";
}
