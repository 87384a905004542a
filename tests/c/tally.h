/* Counts checks, prints a line for each that fails, and last the counts. */
#ifndef TALLY_H
#define TALLY_H

#include <stdbool.h>
#include <stdio.h>

static unsigned passed, failed;

static inline void check(const char *name, bool holds)
{
    if (holds) {
        passed++;
        return;
    }
    failed++;
    printf("FAILED %s\n", name);
}

/* The last line, and the program's status. */
static inline int verdict(void)
{
    printf("%u passed, %u failed\n", passed, failed);
    return failed != 0;
}

#endif
