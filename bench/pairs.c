#include "pairs.h"

#include <stdint.h>
#include <stdlib.h>
#include <time.h>

enum { PAIRS = 501 };

static uint64_t now(void)
{
    struct timespec t;
    clock_gettime(CLOCK_MONOTONIC, &t);
    return (uint64_t)t.tv_sec * 1000000000u + (uint64_t)t.tv_nsec;
}

static double time_of(work *work, void *with, int turns)
{
    uint64_t began = now();
    for (int i = 0; i < turns; i++)
        work(with);
    return (double)(now() - began);
}

static int by_value(const void *a, const void *b)
{
    double x = *(const double *)a, y = *(const double *)b;
    return (x > y) - (x < y);
}

/* Which of them goes first changes from pair to pair. */
double median_ratio(work *ours, work *plain, void *with, int turns)
{
    static double ratios[PAIRS];
    for (int i = 0; i < PAIRS; i++) {
        double first = time_of(i % 2 ? ours : plain, with, turns), second = time_of(i % 2 ? plain : ours, with, turns);
        ratios[i] = i % 2 ? second / first : first / second;
    }
    qsort(ratios, PAIRS, sizeof *ratios, by_value);
    return ratios[PAIRS / 2];
}
