#include "making.h"

#include <stdlib.h>
#include <string.h>

/* splitmix64 */
size_t below(struct random *random, size_t limit)
{
    uint64_t z = random->state += 0x9e3779b97f4a7c15;
    z = (z ^ z >> 30) * 0xbf58476d1ce4e5b9;
    z = (z ^ z >> 27) * 0x94d049bb133111eb;
    return (size_t)(((z ^ z >> 31) >> 32) * limit >> 32);
}

size_t make_bytes(struct random *random, size_t count, uint8_t *out)
{
    for (size_t i = 0; i < count; i++)
        out[i] = (uint8_t)below(random, 256);
    return count;
}

size_t make_residues(struct random *random, size_t count, uint8_t *out)
{
    for (size_t i = 0; i < count; i++)
        out[i] = (uint8_t)below(random, SIGNON_MODULUS);
    return count;
}

static size_t make_permutation(struct random *random, size_t n, uint8_t *out)
{
    for (size_t i = 0; i < n; i++) {
        size_t j = below(random, i + 1);
        out[i] = out[j];
        out[j] = (uint8_t)i;
    }
    return n;
}

static size_t make_permutations(struct random *random, size_t n, size_t count, uint8_t *out)
{
    for (size_t k = 0; k < count; k++)
        make_permutation(random, n, out + k * n);
    return n * count;
}

static size_t make_bits(struct random *random, size_t rounds, uint8_t *out)
{
    make_bytes(random, packed_size(rounds), out);
    clear_unused(rounds, out);
    return packed_size(rounds);
}

size_t make_rest(struct random *random, int kind, struct sizes sizes, uint8_t *out)
{
    size_t n = sizes.n, m = sizes.m, rounds = sizes.rounds;
    switch (kind) {
    case SYSTEM: return make_residues(random, m * (n - m), out);
    case PUBLIC_KEY: return make_residues(random, n, out);
    case SECRET_KEY: return make_permutation(random, n, out);
    case COMMITMENTS: return make_bytes(random, 2 * DIGEST * rounds, out);
    case CHALLENGES: return make_residues(random, rounds, out);
    case FIRST_ANSWERS: return make_residues(random, n * rounds, out);
    case BITS: return make_bits(random, rounds, out);
    default: return make_permutations(random, n, rounds, out);
    }
}

size_t first_number(int kind, struct sizes sizes)
{
    return starts_with_rounds(kind) ? sizes.rounds : sizes.n;
}

size_t second_number(int kind, struct sizes sizes)
{
    return kind == SYSTEM ? sizes.m : sizes.rounds;
}

size_t make_frame(struct random *random, int kind, struct sizes sizes, uint8_t *out)
{
    size_t rest = make_rest(random, kind, sizes, out + start_of(kind));
    put_heading(kind, first_number(kind, sizes), second_number(kind, sizes), rest, out);
    return start_of(kind) + rest;
}

size_t make_choices(struct random *random, struct sizes sizes, uint8_t *out)
{
    for (size_t k = 0; k < sizes.rounds; k++) {
        out += make_residues(random, sizes.n, out);
        out += make_permutation(random, sizes.n, out);
    }
    return SIGNON_CHOICES_SIZE(sizes.n, sizes.rounds);
}

/* Lent so many bytes, the drawing of a key does not run out: it takes at most 126, and skips fewer than one in four. */
enum { ENOUGH_FOR_A_KEY = 512 };

void make_keys(struct random *random, struct sizes sizes, uint8_t *system, uint8_t *public_key, uint8_t *secret_key)
{
    uint8_t lent[ENOUGH_FOR_A_KEY], both[SIGNON_KEY_SIZE(SIGNON_MOST_N)];
    size_t system_size = make_frame(random, SYSTEM, sizes, system), size = SIGNON_PUBLIC_KEY_SIZE(sizes.n);
    make_bytes(random, sizeof lent, lent);
    if (refused(plain_make_key((struct bytes){system, system_size}, (struct bytes){lent, sizeof lent}, (struct bytes){both, sizeof both})))
        abort();
    memcpy(public_key, both, size);
    memcpy(secret_key, both + size, SIGNON_SECRET_KEY_SIZE(sizes.n));
}
