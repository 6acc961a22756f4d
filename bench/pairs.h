/* How the proved code's speed compares with plain C's. */
#ifndef PAIRS_H
#define PAIRS_H

typedef void work(void *with);

/* Plain C's time over ours, so 1 is C's speed and more is faster: the median over many pairs of times taken one after the other, each of so many turns. A
   machine that changes its speed now and then spoils few of them. */
double median_ratio(work *ours, work *plain, void *with, int turns);

#endif
