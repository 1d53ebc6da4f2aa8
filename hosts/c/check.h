/* What test.c, ranges.c and dates.c check with: a check that fails ends the program and says where. */
#ifndef CHECK_H
#define CHECK_H

#include <stdbool.h>
#include <stdint.h>
#include <stdio.h>
#include <stdlib.h>

#define MARK UINT64_C(0xA5C396E15A3C691E) /* what an answer holds before a call */

static unsigned passed;

static void check(bool holds, const char *file, int line, const char *what)
{
    if (!holds) {
        fprintf(stderr, "%s:%d: FAILED: %s\n", file, line, what);
        exit(1);
    }
    passed++;
}

#define CHECK(holds) check(holds, __FILE__, __LINE__, #holds)

#endif
