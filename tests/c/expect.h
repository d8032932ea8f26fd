/* Counting for the test programs of this folder: each check is counted, and one that fails is named. */
#ifndef EXPECT_H
#define EXPECT_H

#include <stdio.h>

static int passed, failed;

static void expect(int ok, const char *what) {
    if (ok) {
        passed++;
    } else {
        failed++;
        printf("FAILED: %s\n", what);
    }
}

/* The last line of a test program, and its status. */
static int counted(void) {
    printf("%d passed, %d failed\n", passed, failed);
    return failed != 0;
}

#endif
