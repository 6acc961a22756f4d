/* A group of calls, driven by libFuzzer: every input is the recipe of one call, to the proved code and to plain C. GROUP is the group's name. */
#include "compare.h"

#include <stdlib.h>

/* The calls of each group. */
#define verdict VERDICT
#define card BEGIN, ANSWER, OPEN
#define readers READ_SYSTEM, READ_PUBLIC_KEY, READ_SECRET_KEY, READ_COMMITMENTS, READ_CHALLENGES, READ_FIRST_ANSWERS, READ_BITS, READ_OPENINGS, CHECK_OPENING
#define writers WRITE_SYSTEM, WRITE_PUBLIC_KEY, WRITE_SECRET_KEY, WRITE_COMMITMENTS, WRITE_CHALLENGES, WRITE_FIRST_ANSWERS, WRITE_BITS, WRITE_OPENINGS
#define drawings DRAW_PERMUTATION, DRAW_CHALLENGES, DRAW_BITS, DRAW_CHOICES, MAKE_KEY
#define others HASH, STAND_IN, CHECK_KEY, GIVE_UP

static const int calls[] = {GROUP};
enum { COUNT = sizeof calls / sizeof *calls };

static struct drafts drafts;

static void tell_at_the_end(void)
{
    tell_counts(stderr, calls, COUNT);
}

int LLVMFuzzerTestOneInput(const uint8_t *data, size_t size)
{
    static bool begun;
    if (!begun)
        begun = atexit(tell_at_the_end) == 0;
    struct recipe recipe = {data, size};
    make_call(&recipe, calls, COUNT, &drafts);
    if (!same_by_both(&drafts)) {
        tell_call(stderr, &drafts);
        abort();
    }
    return 0;
}
