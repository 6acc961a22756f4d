/* Plays a call by the proved code and by plain C, and holds one to the other. */
#ifndef COMPARE_H
#define COMPARE_H

#include "recipes.h"

#include <stdio.h>

/* A copy of the draft at an edge of memory, which ends right behind it or in front of it. There is one such place for each buffer; of no bytes, the copy with
   memory's end in front is NULL. */
struct bytes lend(const struct draft *draft, int buffer, bool behind);

/* Whether both give the same answer and leave the same bytes: of a refused call, and of what is not lent for writing, those that were lent; and whether
   document 01 gives the call this answer. Where not, it is said on standard error. What the proved code is lent lies at the edges of memory. Counts the
   answer. */
bool same_by_both(const struct drafts *drafts);

/* The call, its numbers and the sizes of its buffers. */
void tell_call(FILE *to, const struct drafts *drafts);

/* How often each of so many calls was done, and refused by each number that it has; and in a line all of them together. */
void tell_counts(FILE *to, const int calls[], size_t count);

/* Whether the call was done, and refused by each number that it has. Where not, it is said on standard error. */
bool all_reached(int call);

#endif
