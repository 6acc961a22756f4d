/* Every call of signon.h as data, to be played by the proved code or by plain C. */
#ifndef PLAIN_CALLS_H
#define PLAIN_CALLS_H

#include "plain.h"

/* Readers and writers stand in the order of their kinds. */
enum {
    READ_SYSTEM,
    READ_PUBLIC_KEY,
    READ_SECRET_KEY,
    READ_COMMITMENTS,
    READ_CHALLENGES,
    READ_FIRST_ANSWERS,
    READ_BITS,
    READ_OPENINGS,
    WRITE_SYSTEM,
    WRITE_PUBLIC_KEY,
    WRITE_SECRET_KEY,
    WRITE_COMMITMENTS,
    WRITE_CHALLENGES,
    WRITE_FIRST_ANSWERS,
    WRITE_BITS,
    WRITE_OPENINGS,
    CHECK_OPENING,
    HASH,
    STAND_IN,
    DRAW_PERMUTATION,
    DRAW_CHALLENGES,
    DRAW_BITS,
    DRAW_CHOICES,
    MAKE_KEY,
    CHECK_KEY,
    BEGIN,
    ANSWER,
    OPEN,
    GIVE_UP,
    VERDICT,
    CALLS
};

enum { MOST_NUMBERS = 2, RECORD = SIGNON_NO_BUFFER, BUFFERS = SIGNON_OUTPUT + 1, REFUSALS = SIGNON_SELF + 1 };

/* A call with what it is lent: its bare numbers in their order, and its buffers by signon.h's numbers; the record stands where no buffer does. */
struct lent {
    int call;
    size_t numbers[MOST_NUMBERS];
    struct bytes buffers[BUFFERS];
};

/* What is so of a call whatever it is lent. A set has bit k where k is in it. */
struct trait {
    const char *name;
    int numbers;
    unsigned lent, written; /* sets of buffers */
    unsigned refusals;      /* a set of refusal numbers: those that document 01 gives the call */
};

extern const struct trait TRAITS[CALLS];

static inline bool is_in(unsigned set, int k) { return set >> k & 1; }

/* The kind of a reader or a writer, and 0 of another call. */
int kind_of(int call);

typedef struct signon_answer play(const struct lent *lent);
play play_proved, play_plain;

#endif
