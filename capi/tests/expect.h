/* What the tests of the library share: a count of what is not as it should be, a line for each, and over which kind of log they go. */
#ifndef EXPECT_H
#define EXPECT_H

#include <stdio.h>
#include <string.h>

#ifdef OVER_ENDLESS_H
enum { HAS_NO_END = 1 };
#else
enum { HAS_NO_END = 0 };
#endif

static int failures = 0;

static void is_at(int line, long got, long want) {
    if (got != want) {
        printf("line %d: %ld in place of %ld\n", line, got, want);
        failures++;
    }
}

#define IS(got, want) is_at(__LINE__, (long)(got), (long)(want))
#define IS_TEXT(got, want) is_at(__LINE__, strcmp((got), (want)), 0)

#endif
