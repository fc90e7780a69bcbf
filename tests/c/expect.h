/* What a test in C expects. */
#ifndef EXPECT_H
#define EXPECT_H

#include <stddef.h>
#include <stdio.h>

/* How many results of a test were wrong. */
static int wrong;

/* Counts a wrong result, and prints the first few of a test, with two numbers that tell them apart. */
static void expect(int holds, const char *what, size_t a, size_t b) {
    if (holds) return;
    if (wrong++ < 5) printf("    %s: %zu, %zu\n", what, a, b);
}

#endif
