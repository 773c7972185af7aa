/*
 * Checks that a test in C counts: `check` says what does not hold, and `ended` prints the test's last line and gives its exit status.
 */
#ifndef CHECK_H
#define CHECK_H

#include <stdio.h>

static unsigned long checks, failures;

/* Counts a check, and says what does not hold. */
static void check(int holds, const char *what)
{
    checks++;
    if (!holds) {
        failures++;
        printf("not ok: %s\n", what);
    }
}

/* Prints "passed" or "failed" with the count of checks. Gives 0 where all hold. */
static int ended(void)
{
    printf("%s: %lu checks, %lu not ok\n", failures == 0 ? "passed" : "failed", checks, failures);
    return failures != 0;
}

#endif
