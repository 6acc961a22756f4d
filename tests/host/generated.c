/* Generated calls, honest and damaged, each by the proved code and by plain C (tests/fuzz/compare.h).

       generated CALLS SEED

   Prints how often each call was done, and refused by each number. Exit status 1 where the two differ, where memory outside of what is lent is touched, or
   where a call was never done, or never refused by a number that it has. */
#define _DEFAULT_SOURCE /* fork */
#include "compare.h"

#include <signal.h>
#include <stdlib.h>
#include <sys/wait.h>
#include <unistd.h>

enum { MOST_EDITS = 3 };

static struct drafts drafts;
static unsigned long long made;

static void fail(void)
{
    fprintf(stderr, "at call %llu: ", made);
    tell_call(stderr, &drafts);
    exit(1);
}

static void fault(int signal)
{
    (void)signal;
    fprintf(stderr, "memory outside of what is lent is touched ");
    fail();
}

/* A byte beyond an edge can't be read: a process of its own that does so has to end by a fault. */
static bool is_an_edge(bool behind)
{
    drafts.buffers[RECORD].size = 1;
    const volatile uint8_t *lent = lend(&drafts.buffers[RECORD], RECORD, behind).at;
    pid_t process = fork();
    if (process == 0) {
        (void)lent[behind ? 1 : -1];
        _exit(0);
    }
    int status;
    return process > 0 && waitpid(process, &status, 0) == process && WIFSIGNALED(status) && WTERMSIG(status) == SIGSEGV;
}

/* The calls with the most to refuse come more often than the others. */
static int pick_call(struct random *random)
{
    static const int often[] = {STAND_IN, MAKE_KEY, CHECK_KEY, BEGIN, ANSWER, OPEN, VERDICT, VERDICT};
    return below(random, 2) ? (int)below(random, CALLS) : often[below(random, sizeof often / sizeof *often)];
}

static void make_generated(struct random *random)
{
    static const size_t edits[] = {0, 1, 1, 1, 2, MOST_EDITS};
    uint8_t bytes[HEAD_BYTES + MOST_EDITS * EDIT_BYTES];
    int call = pick_call(random);
    struct recipe recipe = {bytes, HEAD_BYTES + edits[below(random, 6)] * EDIT_BYTES};
    make_bytes(random, recipe.left, bytes);
    make_call(&recipe, &call, 1, &drafts);
}

static unsigned long long number_of(const char *word)
{
    char *end;
    unsigned long long number = strtoull(word, &end, 10);
    if (*word == '\0' || *end != '\0') {
        fprintf(stderr, "%s is no number\n", word);
        exit(2);
    }
    return number;
}

static bool tell_reached(void)
{
    int calls[CALLS];
    bool reached = true;
    for (int call = 0; call < CALLS; call++) {
        calls[call] = call;
        reached = all_reached(call) && reached;
    }
    tell_counts(stdout, calls, CALLS);
    return reached;
}

int main(int count, char **words)
{
    if (count != 3) {
        fprintf(stderr, "usage: generated CALLS SEED\n");
        return 2;
    }
    unsigned long long calls = number_of(words[1]);
    struct random random = {number_of(words[2])};
    if (!is_an_edge(true) || !is_an_edge(false)) {
        fprintf(stderr, "memory outside of what is lent can be read\n");
        return 1;
    }
    signal(SIGSEGV, fault);
    for (; made < calls; made++) {
        make_generated(&random);
        if (!same_by_both(&drafts))
            fail();
    }
    return tell_reached() ? 0 : 1;
}
