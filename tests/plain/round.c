#include "round.h"

#include "sha256.h"

#include <string.h>

struct signon_answer read_public(struct bytes system, struct bytes public_key)
{
    struct signon_answer a = read_frame(SYSTEM, system, ANY, ANY);
    return refused(a) ? a : read_frame(PUBLIC_KEY, public_key, SIGNON_FIRST_NUMBER(a), ANY);
}

struct public_data public_data_of(struct bytes system, struct bytes public_key)
{
    return (struct public_data){system.at[4], system.at[5], system.at + start_of(SYSTEM), public_key.at + start_of(PUBLIC_KEY)};
}

bool bit_of(const uint8_t *packed, size_t k)
{
    return packed[k / 8] >> (7 - k % 8) & 1;
}

/* A row's sum is below 64 · 250 · 250, so it is reduced once. */
void product(const struct public_data *d, const uint8_t *x, uint8_t *out)
{
    size_t m = d->m, width = d->n - m;
    const uint8_t *row = d->entries;
    for (size_t i = 0; i < m; i++, row += width) {
        uint32_t sum = x[width + i];
        for (size_t j = 0; j < width; j++)
            sum += (uint32_t)row[j] * x[j];
        out[i] = (uint8_t)(sum % SIGNON_MODULUS);
    }
}

void permute(const uint8_t *v, const uint8_t *theta, size_t n, uint8_t *out)
{
    for (size_t j = 0; j < n; j++)
        out[j] = v[theta[j]];
}

/* A_sigma W, which is A U for the U with U[sigma[j]] = W[j]. */
static void product_permuted(const struct public_data *d, const uint8_t *sigma, const uint8_t *w, uint8_t *out)
{
    size_t n = d->n;
    uint8_t u[SIGNON_MOST_N];
    for (size_t j = 0; j < n; j++)
        u[sigma[j]] = w[j];
    product(d, u, out);
}

void add_scaled(const struct public_data *d, const uint8_t *r, uint32_t c, const uint8_t *theta, uint8_t *out)
{
    size_t n = d->n;
    uint8_t v[SIGNON_MOST_N];
    permute(d->vector, theta, n, v);
    for (size_t j = 0; j < n; j++)
        out[j] = (uint8_t)((r[j] + c * v[j]) % SIGNON_MODULUS);
}

void commitment_zero(const struct public_data *d, struct choice choice, uint8_t digest[DIGEST])
{
    uint8_t message[2 * SIGNON_MOST_N];
    memcpy(message, choice.sigma, d->n);
    product(d, choice.r, message + d->n);
    plain_in_pieces(message, d->n + d->m, 0, digest);
}

void commitment_one(const uint8_t *pi, size_t n, struct choice choice, uint8_t digest[DIGEST])
{
    uint8_t message[2 * SIGNON_MOST_N];
    permute(pi, choice.sigma, n, message);
    permute(choice.r, choice.sigma, n, message + n);
    plain_in_pieces(message, 2 * n, 0, digest);
}

void first_answer(const struct public_data *d, const uint8_t *pi, uint8_t c, struct choice choice, uint8_t *out)
{
    uint8_t tau[SIGNON_MOST_N], r[SIGNON_MOST_N];
    permute(pi, choice.sigma, d->n, tau);
    permute(choice.r, choice.sigma, d->n, r);
    add_scaled(d, r, c, tau, out);
}

void opening(const uint8_t *pi, size_t n, bool bit, struct choice choice, uint8_t *out)
{
    if (bit)
        permute(pi, choice.sigma, n, out);
    else
        memcpy(out, choice.sigma, n);
}

void commitment_shown(const struct public_data *d, uint8_t c, bool bit, struct shown shown, uint8_t digest[DIGEST])
{
    uint8_t message[2 * SIGNON_MOST_N];
    memcpy(message, shown.opened, d->n);
    if (bit)
        add_scaled(d, shown.w, SIGNON_MODULUS - c, shown.opened, message + d->n);
    else
        product_permuted(d, shown.opened, shown.w, message + d->n);
    plain_in_pieces(message, d->n + (bit ? d->n : d->m), 0, digest);
}

bool passes(const struct public_data *d, uint8_t c, bool bit, const uint8_t commitment[DIGEST], struct shown shown)
{
    uint8_t digest[DIGEST];
    commitment_shown(d, c, bit, shown, digest);
    return memcmp(digest, commitment, DIGEST) == 0;
}
