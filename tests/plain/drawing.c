/* The five drawings from lent bytes. What is drawn is put together aside, so that an output is written once it is known that the bytes suffice. */
#include "round.h"

#include <string.h>

enum { BYTES = 256 };

/* Where a drawing takes its bytes from, and how many it has used. Once they have run out, zeros are drawn. */
struct source {
    struct bytes random;
    size_t used;
    bool ran_out;
};

static struct source source_of(struct bytes random)
{
    return (struct source){random, 0, false};
}

static uint8_t draw_below(struct source *source, size_t limit)
{
    while (source->used < source->random.size) {
        uint8_t x = source->random.at[source->used++];
        if (x < limit)
            return x;
    }
    source->ran_out = true;
    return 0;
}

static void draw_bytes(struct source *source, size_t limit, size_t count, uint8_t *out)
{
    for (size_t i = 0; i < count; i++)
        out[i] = draw_below(source, limit);
}

static void draw_permutation(struct source *source, size_t n, uint8_t *out)
{
    for (size_t i = 0; i < n; i++)
        out[i] = (uint8_t)i;
    for (size_t i = n - 1; i >= 1; i--) {
        size_t j = draw_below(source, BYTES / (i + 1) * (i + 1)) % (i + 1);
        uint8_t kept = out[i];
        out[i] = out[j];
        out[j] = kept;
    }
}

/* ROOM, then DRAW; what was drawn goes over the front of the output, and the answer tells the bytes used. */
static struct signon_answer put_drawn(const struct source *source, const uint8_t *drawn, size_t size, struct bytes out)
{
    struct signon_answer a = check_room(size, out);
    if (refused(a))
        return a;
    if (source->ran_out)
        return refuse(SIGNON_DRAW, SIGNON_RANDOM, source->random.size);
    memcpy(out.at, drawn, size);
    return done(source->used);
}

struct signon_answer plain_draw_permutation(size_t n, struct bytes random, struct bytes out)
{
    uint8_t drawn[SIGNON_MOST_N];
    struct source source = source_of(random);
    if (!is_n(n))
        return bad_number();
    draw_permutation(&source, n, drawn);
    return put_drawn(&source, drawn, n, out);
}

struct signon_answer plain_draw_challenges(size_t rounds, struct bytes random, struct bytes out)
{
    uint8_t frame[SIGNON_CHALLENGES_SIZE(SIGNON_MOST_ROUNDS)];
    struct source source = source_of(random);
    if (!is_rounds(rounds))
        return bad_number();
    put_heading(CHALLENGES, rounds, 0, rounds, frame);
    draw_bytes(&source, SIGNON_MODULUS, rounds, frame + start_of(CHALLENGES));
    return put_drawn(&source, frame, SIGNON_CHALLENGES_SIZE(rounds), out);
}

struct signon_answer plain_draw_bits(size_t rounds, struct bytes random, struct bytes out)
{
    uint8_t frame[SIGNON_BITS_SIZE(SIGNON_MOST_ROUNDS)];
    struct source source = source_of(random);
    if (!is_rounds(rounds))
        return bad_number();
    put_heading(BITS, rounds, 0, packed_size(rounds), frame);
    draw_bytes(&source, BYTES, packed_size(rounds), frame + start_of(BITS));
    clear_unused(rounds, frame + start_of(BITS));
    return put_drawn(&source, frame, SIGNON_BITS_SIZE(rounds), out);
}

struct signon_answer plain_draw_choices(size_t n, size_t rounds, struct bytes random, struct bytes out)
{
    uint8_t drawn[SIGNON_CHOICES_SIZE(SIGNON_MOST_N, SIGNON_MOST_ROUNDS)], *next = drawn;
    struct source source = source_of(random);
    if (!is_n(n) || !is_rounds(rounds))
        return bad_number();
    for (size_t k = 0; k < rounds; k++, next += 2 * n) {
        draw_bytes(&source, SIGNON_MODULUS, n, next);
        draw_permutation(&source, n, next + n);
    }
    return put_drawn(&source, drawn, SIGNON_CHOICES_SIZE(n, rounds), out);
}

/* The last m entries of X, for which A X is zero. */
static void complete(const struct public_data *d, uint8_t *x)
{
    uint8_t rows[SIGNON_MOST_N];
    size_t front = d->n - d->m;
    memset(x + front, 0, d->m);
    product(d, x, rows);
    for (size_t i = 0; i < d->m; i++)
        x[front + i] = (uint8_t)((SIGNON_MODULUS - rows[i]) % SIGNON_MODULUS);
}

struct signon_answer plain_make_key(struct bytes system, struct bytes random, struct bytes out)
{
    uint8_t pi[SIGNON_MOST_N], x[SIGNON_MOST_N], vector[SIGNON_MOST_N], both[SIGNON_KEY_SIZE(SIGNON_MOST_N)];
    struct source source = source_of(random);
    struct signon_answer a = plain_read(SYSTEM, system);
    if (refused(a))
        return a;
    struct public_data d = {SIGNON_FIRST_NUMBER(a), SIGNON_SECOND_NUMBER(a), system.at + start_of(SYSTEM), vector};
    draw_permutation(&source, d.n, pi);
    draw_bytes(&source, SIGNON_MODULUS, d.n - d.m, x);
    complete(&d, x);
    for (size_t j = 0; j < d.n; j++)
        vector[pi[j]] = x[j];
    size_t size = SIGNON_PUBLIC_KEY_SIZE(d.n);
    plain_write(PUBLIC_KEY, d.n, 0, (struct bytes){vector, d.n}, (struct bytes){both, size});
    plain_write(SECRET_KEY, d.n, 0, (struct bytes){pi, d.n}, (struct bytes){both + size, SIGNON_SECRET_KEY_SIZE(d.n)});
    return put_drawn(&source, both, SIGNON_KEY_SIZE(d.n), out);
}
