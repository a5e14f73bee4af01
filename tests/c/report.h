/* A line for each check, and the count at the end. */
#ifndef REPORT_H
#define REPORT_H

#include <stdio.h>

static int passed;
static int failed;

static void check(const char *name, int holds)
{
    printf("%s %s\n", holds ? "ok" : "FAIL", name);
    if (holds)
        passed++;
    else
        failed++;
}

/* What main returns: 0 where nothing failed. */
static int report_all(void)
{
    printf("%d passed, %d failed\n", passed, failed);
    return failed != 0;
}

#endif
