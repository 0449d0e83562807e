/* How the measurements time and print. The best of several rounds counts: whatever else the machine does only adds. */
#ifndef HERVODIG_TIMING_H
#define HERVODIG_TIMING_H
#include <stdio.h>
#include <time.h>

enum { ROUNDS = 9 };

static double now(void)
{
    struct timespec t;
    clock_gettime(CLOCK_MONOTONIC, &t);
    return (double)t.tv_sec + 1e-9 * (double)t.tv_nsec;
}

/* The time of one call in a round of so many, in seconds. */
static double round_of(void (*call)(const void *), const void *with, int calls)
{
    double began = now();
    for (int i = 0; i < calls; i++)
        call(with);
    return (now() - began) / calls;
}

static void compare(const char *what, double mine, const char *with, double other)
{
    int small = mine < 1e-5;
    double scale = small ? 1e9 : 1e6;
    const char *unit = small ? "ns" : "us";
    printf("%-36s %9.1f %s   %-26s %9.1f %s   ratio %.2f\n", what, scale * mine, unit, with, scale * other, unit, mine / other);
}
#endif
