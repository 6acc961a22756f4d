/* The key check, the card's three calls, and giving up. */
#include "round.h"

#include <string.h>

static struct choice choice_of(const struct card *card, size_t n, size_t k)
{
    const uint8_t *at = card->choices.at + 2 * n * k;
    return (struct choice){at, at + n};
}

/* What each call asks, in document 01's order. */

static struct signon_answer check_keys(const struct card *card)
{
    struct signon_answer a = read_public(card->system, card->public_key);
    return refused(a) ? a : read_frame(SECRET_KEY, card->secret_key, card->system.at[4], ANY);
}

static struct signon_answer check_valid(const struct public_data *d, const uint8_t *pi)
{
    uint8_t v[SIGNON_MOST_N], rows[SIGNON_MOST_N];
    permute(d->vector, pi, d->n, v);
    product(d, v, rows);
    for (size_t i = 0; i < d->m; i++)
        if (rows[i] != 0)
            return refuse(SIGNON_KEY, SIGNON_SECRET_KEY, i);
    return done(0);
}

static const uint8_t *secret_of(const struct card *card)
{
    return card->secret_key.at + start_of(SECRET_KEY);
}

static struct signon_answer check_end(const struct card *card, const struct public_data *d, size_t rounds, size_t need, struct bytes out)
{
    struct signon_answer a = check_choices(card->choices, d->n, rounds);
    if (!refused(a))
        a = check_valid(d, secret_of(card));
    return refused(a) ? a : check_room(need, out);
}

static bool kept_fit(const struct signon_record *record)
{
    return !refused(check_residues(SIGNON_NO_BUFFER, record->challenges, 0, record->rounds));
}

static bool record_fits(const struct signon_record *record, const struct public_data *d)
{
    if (record->n != d->n || record->m != d->m || !is_rounds(record->rounds))
        return false;
    return record->stage != SIGNON_ANSWERED || kept_fit(record);
}

/* What answer and open ask, SELF aside; first answers and openings need the same room. */
static struct signon_answer check_step(const struct signon_record *record, int stage, const struct card *card, int kind, struct bytes message, struct bytes out)
{
    if (record->stage != stage)
        return refuse(SIGNON_STAGE, SIGNON_NO_BUFFER, 0);
    struct signon_answer a = check_keys(card);
    if (refused(a))
        return a;
    struct public_data d = public_data_of(card->system, card->public_key);
    if (!record_fits(record, &d))
        return refuse(SIGNON_STAGE, SIGNON_NO_BUFFER, 0);
    a = read_frame(kind, message, d.n, record->rounds);
    return refused(a) ? a : check_end(card, &d, record->rounds, SIGNON_OPENINGS_SIZE(d.n, record->rounds), out);
}

/* The key check */

struct signon_answer plain_check_key(struct bytes system, struct bytes public_key, struct bytes secret_key)
{
    struct card card = {system, public_key, secret_key, {NULL, 0}};
    struct signon_answer a = check_keys(&card);
    if (refused(a))
        return a;
    struct public_data d = public_data_of(system, public_key);
    return check_valid(&d, secret_of(&card));
}

/* Begin */

struct signon_answer plain_begin(struct signon_record *record, size_t rounds, const struct card *card, struct bytes out)
{
    if (record->stage != SIGNON_IDLE && record->stage != SIGNON_CLOSED)
        return refuse(SIGNON_STAGE, SIGNON_NO_BUFFER, 0);
    if (!is_rounds(rounds))
        return bad_number();
    struct signon_answer a = check_keys(card);
    if (refused(a))
        return a;
    struct public_data d = public_data_of(card->system, card->public_key);
    a = check_end(card, &d, rounds, SIGNON_COMMITMENTS_SIZE(rounds), out);
    if (refused(a))
        return a;
    const uint8_t *pi = secret_of(card);
    put_heading(COMMITMENTS, rounds, 0, 2 * DIGEST * rounds, out.at);
    uint8_t *next = out.at + start_of(COMMITMENTS);
    for (size_t k = 0; k < rounds; k++, next += 2 * DIGEST) {
        commitment_zero(&d, choice_of(card, d.n, k), next);
        commitment_one(pi, d.n, choice_of(card, d.n, k), next + DIGEST);
    }
    *record = (struct signon_record){SIGNON_COMMITTED, (uint8_t)d.n, (uint8_t)d.m, (uint8_t)rounds, {0}};
    return done(SIGNON_COMMITMENTS_SIZE(rounds));
}

/* Answer */

struct signon_answer plain_answer(struct signon_record *record, const struct card *card, struct bytes challenges, struct bytes out)
{
    struct signon_answer a = check_step(record, SIGNON_COMMITTED, card, CHALLENGES, challenges, out);
    if (refused(a))
        return a;
    struct public_data d = public_data_of(card->system, card->public_key);
    size_t rounds = record->rounds;
    const uint8_t *pi = secret_of(card), *c = challenges.at + start_of(CHALLENGES);
    put_heading(FIRST_ANSWERS, d.n, rounds, d.n * rounds, out.at);
    for (size_t k = 0; k < rounds; k++)
        first_answer(&d, pi, c[k], choice_of(card, d.n, k), out.at + start_of(FIRST_ANSWERS) + k * d.n);
    record->stage = SIGNON_ANSWERED;
    memcpy(record->challenges, c, rounds);
    return done(SIGNON_FIRST_ANSWERS_SIZE(d.n, rounds));
}

/* Open */

/* Commitment and first answer formed anew, and looked at as the register would. */
static bool own_passes(const struct public_data *d, const uint8_t *pi, uint8_t c, bool bit, struct choice choice)
{
    uint8_t commitment[DIGEST], w[SIGNON_MOST_N], opened[SIGNON_MOST_N];
    if (bit)
        commitment_one(pi, d->n, choice, commitment);
    else
        commitment_zero(d, choice, commitment);
    first_answer(d, pi, c, choice, w);
    opening(pi, d->n, bit, choice, opened);
    return passes(d, c, bit, commitment, (struct shown){w, opened});
}

struct signon_answer plain_open(struct signon_record *record, const struct card *card, struct bytes bits, struct bytes out)
{
    struct signon_answer a = check_step(record, SIGNON_ANSWERED, card, BITS, bits, out);
    if (refused(a))
        return a;
    struct public_data d = public_data_of(card->system, card->public_key);
    size_t rounds = record->rounds;
    const uint8_t *pi = secret_of(card), *packed = bits.at + start_of(BITS);
    for (size_t k = 0; k < rounds; k++)
        if (!own_passes(&d, pi, record->challenges[k], bit_of(packed, k), choice_of(card, d.n, k)))
            return refuse(SIGNON_SELF, SIGNON_CHOICES, k);
    put_heading(OPENINGS, d.n, rounds, d.n * rounds, out.at);
    for (size_t k = 0; k < rounds; k++)
        opening(pi, d.n, bit_of(packed, k), choice_of(card, d.n, k), out.at + start_of(OPENINGS) + k * d.n);
    memset(card->choices.at, 0, card->choices.size);
    record->stage = SIGNON_CLOSED;
    return done(SIGNON_OPENINGS_SIZE(d.n, rounds));
}

/* Give up */

struct signon_answer plain_give_up(struct signon_record *record, struct bytes choices)
{
    memset(record, 0, sizeof *record);
    memset(choices.at, 0, choices.size);
    return done(0);
}
