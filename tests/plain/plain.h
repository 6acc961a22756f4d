/* The sign-on in plain portable C, a model of every call of signon.h, written from document 01 and the readings in docs/DECISIONS.md and not from the proved
   code: tests compare the two, and bench/ measures one beside the other. Answers, numbers and buffers are those of signon.h. */
#ifndef PLAIN_H
#define PLAIN_H

#include "signon.h"

#include <stdbool.h>

struct bytes {
    uint8_t *at;
    size_t size;
};

/* Frames, by the number of their kind; `second` is not looked at where a kind has one number. */
struct signon_answer plain_read(int kind, struct bytes frame);
struct signon_answer plain_write(int kind, size_t first, size_t second, struct bytes plain, struct bytes out);
struct signon_answer plain_check_opening(struct bytes openings, size_t round);

struct signon_answer plain_hash(struct bytes message, struct bytes out);

/* Drawing */
struct signon_answer plain_draw_permutation(size_t n, struct bytes random, struct bytes out);
struct signon_answer plain_draw_challenges(size_t rounds, struct bytes random, struct bytes out);
struct signon_answer plain_draw_bits(size_t rounds, struct bytes random, struct bytes out);
struct signon_answer plain_draw_choices(size_t n, size_t rounds, struct bytes random, struct bytes out);
struct signon_answer plain_make_key(struct bytes system, struct bytes random, struct bytes out);

/* What a card's call is lent beside record, message and output. */
struct card {
    struct bytes system, public_key, secret_key, choices;
};

struct signon_answer plain_check_key(struct bytes system, struct bytes public_key, struct bytes secret_key);
struct signon_answer plain_begin(struct signon_record *record, size_t rounds, const struct card *card, struct bytes out);
struct signon_answer plain_answer(struct signon_record *record, const struct card *card, struct bytes challenges, struct bytes out);
struct signon_answer plain_open(struct signon_record *record, const struct card *card, struct bytes bits, struct bytes out);
struct signon_answer plain_give_up(struct signon_record *record, struct bytes choices);

/* The frames of a sign-on, in the verdict's order. */
enum { OF_SYSTEM, OF_PUBLIC_KEY, OF_COMMITMENTS, OF_CHALLENGES, OF_FIRST_ANSWERS, OF_BITS, OF_OPENINGS, FRAMES };

struct signon_answer plain_verdict(size_t grade, const struct bytes frames[FRAMES]);

struct signon_answer plain_stand_in(size_t challenge, size_t bit, struct bytes system, struct bytes public_key, struct bytes lent, struct bytes out);

#endif
