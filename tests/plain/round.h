/* One round, on well-formed parts. A is [A' | I], the entries those of A' row by row. */
#ifndef PLAIN_ROUND_H
#define PLAIN_ROUND_H

#include "frames.h"

struct public_data {
    size_t n, m;
    const uint8_t *entries, *vector;
};

/* What a card starts a round from. */
struct choice {
    const uint8_t *r, *sigma;
};

/* What a round shows: W and the opened permutation. */
struct shown {
    const uint8_t *w, *opened;
};

/* The system's frame, and that of a public key of its n. */
struct signon_answer read_public(struct bytes system, struct bytes public_key);
struct public_data public_data_of(struct bytes system, struct bytes public_key);
bool bit_of(const uint8_t *packed, size_t k);

/* A X. */
void product(const struct public_data *d, const uint8_t *x, uint8_t *out);
/* V_theta; the product of two permutations where v is one. */
void permute(const uint8_t *v, const uint8_t *theta, size_t n, uint8_t *out);
/* R + c·V_theta, where the negative of a challenge gives R − c·V_theta. */
void add_scaled(const struct public_data *d, const uint8_t *r, uint32_t c, const uint8_t *theta, uint8_t *out);

void commitment_zero(const struct public_data *d, struct choice choice, uint8_t digest[DIGEST]);
void commitment_one(const uint8_t *pi, size_t n, struct choice choice, uint8_t digest[DIGEST]);
void first_answer(const struct public_data *d, const uint8_t *pi, uint8_t c, struct choice choice, uint8_t *out);
void opening(const uint8_t *pi, size_t n, bool bit, struct choice choice, uint8_t *out);
/* The one commitment with which the round passes. */
void commitment_shown(const struct public_data *d, uint8_t c, bool bit, struct shown shown, uint8_t digest[DIGEST]);
bool passes(const struct public_data *d, uint8_t c, bool bit, const uint8_t commitment[DIGEST], struct shown shown);

#endif
