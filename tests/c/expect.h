/* What the C tests share. */
#ifndef EXPECT_H
#define EXPECT_H

#include <stdio.h>

static int failed;

static void expect(const char *what, long got, long wanted) {
    if (got != wanted) {
        printf("%s: %ld instead of %ld\n", what, got, wanted);
        failed = 1;
    }
}

#endif
