/* Conditions that have to hold in a test, and the lines of the first of those that do not. */
#ifndef CHECK_H
#define CHECK_H

#include <stdio.h>

static int failures;

static inline void check(int holds, const char *file, int line)
{
    if (!holds && failures++ < 20) {
        printf("%s: line %d does not hold\n", file, line);
    }
}

#define CHECK(condition) check((condition), __FILE__, __LINE__)

#endif
