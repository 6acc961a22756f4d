/* What an honest sign-on lends, made from a seed: for measuring and testing, not for use. Each call writes to the front of `out`, for which there is room,
   and gives back the bytes written. */
#ifndef PLAIN_MAKING_H
#define PLAIN_MAKING_H

#include "frames.h"

struct random {
    uint64_t state;
};

/* n, m and N, within their limits. */
struct sizes {
    size_t n, m, rounds;
};

/* A number below the limit, which is below 2^32. */
size_t below(struct random *random, size_t limit);

size_t make_bytes(struct random *random, size_t count, uint8_t *out);
size_t make_residues(struct random *random, size_t count, uint8_t *out);
/* The numbers of a kind's frame; the second is for kinds that have two. */
size_t first_number(int kind, struct sizes sizes);
size_t second_number(int kind, struct sizes sizes);
/* Any well-formed rest of a frame, and the frame. */
size_t make_rest(struct random *random, int kind, struct sizes sizes, uint8_t *out);
size_t make_frame(struct random *random, int kind, struct sizes sizes, uint8_t *out);
size_t make_choices(struct random *random, struct sizes sizes, uint8_t *out);
/* The frames of a system and of a valid key, of the sizes that signon.h says. */
void make_keys(struct random *random, struct sizes sizes, uint8_t *system, uint8_t *public_key, uint8_t *secret_key);

#endif
