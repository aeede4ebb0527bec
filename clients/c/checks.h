/* The checks of a program that tries the library: each that fails names its line, and the last line counts them.
 * For a program of one source. */
#ifndef CHECKS_H
#define CHECKS_H

#include <stdio.h>

static unsigned checks, failures;

static void check(int holds, int line)
{
    checks++;
    if (!holds) {
        failures++;
        printf("line %d does not hold\n", line);
    }
}

#define CHECK(holds) check((holds), __LINE__)

/* The exit status of the program, once it has made them all. */
static int say_checks(const char *what)
{
    printf("%u checks of %s, %u failed\n", checks, what, failures);
    return failures != 0;
}

#endif
