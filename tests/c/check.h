/* Checks that are counted, for a test that names itself in TEST. C89 and C++98 at once. */
#ifndef CHECK_H
#define CHECK_H

#include <stdio.h>

static unsigned passed, failed;

static void check(int holds, const char *what) {
    if (holds) {
        passed++;
    } else {
        failed++;
        fprintf(stderr, "%s: failed: %s\n", TEST, what);
    }
}

#endif
