/* A line that says what was tried, and what came of it instead. expect.h stands before it. */
#ifndef TRIED_H
#define TRIED_H

#include <stdarg.h>
#include <stdbool.h>

static char tried[100];

__attribute__((format(printf, 2, 3))) static void expect(bool well, const char *format, ...) {
    va_list rest;
    if (well)
        return;
    failures++;
    va_start(rest, format);
    printf("%s: ", tried);
    vprintf(format, rest);
    putchar('\n');
    va_end(rest);
}

#endif
