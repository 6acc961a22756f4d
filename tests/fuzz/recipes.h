/* Makes calls, for fuzzing and for the generated calls. A recipe is bytes: which call, sizes, a seed, at which edges the buffers lie, and then edits. What an
   honest card or register would lend is made from the seed, so a recipe without edits is well formed; and every byte, size and order of buffers can be
   reached by edits. */
#ifndef RECIPES_H
#define RECIPES_H

#include "calls.h"
#include "making.h"

enum { MOST_BYTES = 70000, HEAD_BYTES = 10, EDIT_BYTES = 6 };

/* The recipe as it is read; bytes behind its end are 0. The first HEAD_BYTES make what is honest, and each edit takes EDIT_BYTES or more. */
struct recipe {
    const uint8_t *at;
    size_t left;
};

uint8_t next_byte(struct recipe *recipe);
size_t next_pair(struct recipe *recipe);

/* A buffer as it is put together, with room to grow. */
struct draft {
    size_t size;
    uint8_t bytes[MOST_BYTES];
};

/* A call as it is put together. `behind` is the set of the buffers with memory's end right behind them; the others have it in front. */
struct drafts {
    int call;
    struct sizes sizes;
    size_t numbers[MOST_NUMBERS];
    unsigned behind;
    struct draft buffers[BUFFERS];
};

/* One of so many calls, as the recipe says. */
void make_call(struct recipe *recipe, const int calls[], size_t count, struct drafts *drafts);

/* Sizes for a call: often small ones, whose every place is met soon, the greatest, and rounds about what a grade asks. */
struct sizes next_sizes(struct recipe *recipe, int call);

/* Numbers and buffers as an honest end would lend them to drafts->call in a sign-on of drafts->sizes; it may lend an output of another size than needed, and
   too few random bytes. */
void make_honest(struct random *random, struct drafts *drafts);

/* One edit, as the recipe says. */
void edit(struct recipe *recipe, struct drafts *drafts);

#endif
