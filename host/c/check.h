/* What the C programs share: checks that are printed and counted. */
#ifndef CHECK_H
#define CHECK_H

#include <stdio.h>

static int failures;

static inline void expect(const char *what, int holds)
{
    printf("%-52s %s\n", what, holds ? "ok" : "WRONG");
    failures += !holds;
}

/* The program's exit status: 0 if every check held, 1 if not. */
static inline int verdict(void)
{
    printf("%s\n", failures ? "FAILED" : "all as expected");
    return failures != 0;
}

#endif
