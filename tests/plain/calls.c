#include "calls.h"

#include "frames.h"

/* The calls one by one */

#define IN(name) (1u << SIGNON_##name)
#define RECORD_ALONE (1u << RECORD)
#define FRAME (IN(SHORT) | IN(LONG) | IN(VERSION) | IN(KIND) | IN(SHAPE))
#define KEYS (IN(SYSTEM) | IN(PUBLIC_KEY) | IN(SECRET_KEY))
#define MESSAGES (IN(COMMITMENTS) | IN(CHALLENGES) | IN(FIRST_ANSWERS) | IN(BITS) | IN(OPENINGS))
#define CARD (RECORD_ALONE | KEYS | IN(CHOICES) | IN(OUTPUT))
#define DRAWN (IN(RANDOM) | IN(OUTPUT))

#define READER(buffer, values) 0, IN(buffer), 0, FRAME | (values)
#define WRITER(numbers, buffer, values) numbers, IN(buffer) | IN(OUTPUT), IN(OUTPUT), IN(SHAPE) | (values) | IN(ROOM)
#define DRAWING(numbers) numbers, DRAWN, IN(OUTPUT), IN(SHAPE) | IN(ROOM) | IN(DRAW)
/* SELF is none of them: after KEY the card's own check passes. */
#define CARD_REFUSALS (FRAME | IN(VALUE) | IN(PERM) | IN(KEY) | IN(ROOM) | IN(STAGE))

const struct trait TRAITS[CALLS] = {
    [READ_SYSTEM] = {"read_system", READER(SYSTEM, IN(VALUE))},
    [READ_PUBLIC_KEY] = {"read_public_key", READER(PUBLIC_KEY, IN(VALUE))},
    [READ_SECRET_KEY] = {"read_secret_key", READER(SECRET_KEY, IN(PERM))},
    [READ_COMMITMENTS] = {"read_commitments", READER(COMMITMENTS, 0)},
    [READ_CHALLENGES] = {"read_challenges", READER(CHALLENGES, IN(VALUE))},
    [READ_FIRST_ANSWERS] = {"read_first_answers", READER(FIRST_ANSWERS, IN(VALUE))},
    [READ_BITS] = {"read_bits", READER(BITS, 0)},
    [READ_OPENINGS] = {"read_openings", READER(OPENINGS, IN(PERM))},
    [WRITE_SYSTEM] = {"write_system", WRITER(2, SYSTEM, IN(VALUE))},
    [WRITE_PUBLIC_KEY] = {"write_public_key", WRITER(1, PUBLIC_KEY, IN(VALUE))},
    [WRITE_SECRET_KEY] = {"write_secret_key", WRITER(1, SECRET_KEY, IN(PERM))},
    [WRITE_COMMITMENTS] = {"write_commitments", WRITER(1, COMMITMENTS, 0)},
    [WRITE_CHALLENGES] = {"write_challenges", WRITER(1, CHALLENGES, IN(VALUE))},
    [WRITE_FIRST_ANSWERS] = {"write_first_answers", WRITER(2, FIRST_ANSWERS, IN(VALUE))},
    [WRITE_BITS] = {"write_bits", WRITER(1, BITS, 0)},
    [WRITE_OPENINGS] = {"write_openings", WRITER(2, OPENINGS, IN(PERM))},
    [CHECK_OPENING] = {"check_opening", 1, IN(OPENINGS), 0, FRAME | IN(PERM)},
    [HASH] = {"hash", 0, IN(CHOICES) | IN(OUTPUT), IN(OUTPUT), IN(SHAPE) | IN(ROOM)},
    [STAND_IN] = {"stand_in", 2, IN(SYSTEM) | IN(PUBLIC_KEY) | IN(CHOICES) | IN(OUTPUT), IN(OUTPUT), FRAME | IN(VALUE) | IN(PERM) | IN(ROOM)},
    [DRAW_PERMUTATION] = {"draw_permutation", DRAWING(1)},
    [DRAW_CHALLENGES] = {"draw_challenges", DRAWING(1)},
    [DRAW_BITS] = {"draw_bits", DRAWING(1)},
    [DRAW_CHOICES] = {"draw_choices", DRAWING(2)},
    [MAKE_KEY] = {"make_key", 0, IN(SYSTEM) | DRAWN, IN(OUTPUT), FRAME | IN(VALUE) | IN(ROOM) | IN(DRAW)},
    [CHECK_KEY] = {"check_key", 0, KEYS, 0, FRAME | IN(VALUE) | IN(PERM) | IN(KEY)},
    [BEGIN] = {"begin", 1, CARD, RECORD_ALONE | IN(OUTPUT), CARD_REFUSALS},
    [ANSWER] = {"answer_challenges", 0, CARD | IN(CHALLENGES), RECORD_ALONE | IN(OUTPUT), CARD_REFUSALS},
    [OPEN] = {"open", 0, CARD | IN(BITS), RECORD_ALONE | IN(CHOICES) | IN(OUTPUT), CARD_REFUSALS},
    [GIVE_UP] = {"give_up", 0, RECORD_ALONE | IN(CHOICES), RECORD_ALONE | IN(CHOICES), 0},
    [VERDICT] = {"verdict", 1, IN(SYSTEM) | IN(PUBLIC_KEY) | MESSAGES, 0, FRAME | IN(VALUE) | IN(PERM) | IN(WEAK) | IN(FIRST) | IN(SECOND)},
};

int kind_of(int call)
{
    if (call > WRITE_OPENINGS)
        return 0;
    return call < WRITE_SYSTEM ? SYSTEM + call - READ_SYSTEM : SYSTEM + call - WRITE_SYSTEM;
}

/* The players */

#define FIRST_ONE lent->numbers[0]
#define SECOND_ONE lent->numbers[1]
#define BUFFER(name) lent->buffers[SIGNON_##name]

static struct signon_record *record_of(const struct lent *lent)
{
    return (struct signon_record *)lent->buffers[RECORD].at;
}

#define LENT(name) BUFFER(name).at, BUFFER(name).size
#define LENT_KEYS LENT(SYSTEM), LENT(PUBLIC_KEY), LENT(SECRET_KEY)

struct signon_answer play_proved(const struct lent *lent)
{
    switch (lent->call) {
    case READ_SYSTEM: return signon_read_system(LENT(SYSTEM));
    case READ_PUBLIC_KEY: return signon_read_public_key(LENT(PUBLIC_KEY));
    case READ_SECRET_KEY: return signon_read_secret_key(LENT(SECRET_KEY));
    case READ_COMMITMENTS: return signon_read_commitments(LENT(COMMITMENTS));
    case READ_CHALLENGES: return signon_read_challenges(LENT(CHALLENGES));
    case READ_FIRST_ANSWERS: return signon_read_first_answers(LENT(FIRST_ANSWERS));
    case READ_BITS: return signon_read_bits(LENT(BITS));
    case READ_OPENINGS: return signon_read_openings(LENT(OPENINGS));
    case WRITE_SYSTEM: return signon_write_system(FIRST_ONE, SECOND_ONE, LENT(SYSTEM), LENT(OUTPUT));
    case WRITE_PUBLIC_KEY: return signon_write_public_key(FIRST_ONE, LENT(PUBLIC_KEY), LENT(OUTPUT));
    case WRITE_SECRET_KEY: return signon_write_secret_key(FIRST_ONE, LENT(SECRET_KEY), LENT(OUTPUT));
    case WRITE_COMMITMENTS: return signon_write_commitments(FIRST_ONE, LENT(COMMITMENTS), LENT(OUTPUT));
    case WRITE_CHALLENGES: return signon_write_challenges(FIRST_ONE, LENT(CHALLENGES), LENT(OUTPUT));
    case WRITE_FIRST_ANSWERS: return signon_write_first_answers(FIRST_ONE, SECOND_ONE, LENT(FIRST_ANSWERS), LENT(OUTPUT));
    case WRITE_BITS: return signon_write_bits(FIRST_ONE, LENT(BITS), LENT(OUTPUT));
    case WRITE_OPENINGS: return signon_write_openings(FIRST_ONE, SECOND_ONE, LENT(OPENINGS), LENT(OUTPUT));
    case CHECK_OPENING: return signon_check_opening(LENT(OPENINGS), FIRST_ONE);
    case HASH: return signon_hash(LENT(CHOICES), LENT(OUTPUT));
    case STAND_IN: return signon_stand_in(FIRST_ONE, SECOND_ONE, LENT(SYSTEM), LENT(PUBLIC_KEY), LENT(CHOICES), LENT(OUTPUT));
    case DRAW_PERMUTATION: return signon_draw_permutation(FIRST_ONE, LENT(RANDOM), LENT(OUTPUT));
    case DRAW_CHALLENGES: return signon_draw_challenges(FIRST_ONE, LENT(RANDOM), LENT(OUTPUT));
    case DRAW_BITS: return signon_draw_bits(FIRST_ONE, LENT(RANDOM), LENT(OUTPUT));
    case DRAW_CHOICES: return signon_draw_choices(FIRST_ONE, SECOND_ONE, LENT(RANDOM), LENT(OUTPUT));
    case MAKE_KEY: return signon_make_key(LENT(SYSTEM), LENT(RANDOM), LENT(OUTPUT));
    case CHECK_KEY: return signon_check_key(LENT_KEYS);
    case BEGIN: return signon_begin(record_of(lent), FIRST_ONE, LENT_KEYS, LENT(CHOICES), LENT(OUTPUT));
    case ANSWER: return signon_answer_challenges(record_of(lent), LENT_KEYS, LENT(CHALLENGES), LENT(CHOICES), LENT(OUTPUT));
    case OPEN: return signon_open(record_of(lent), LENT_KEYS, LENT(BITS), LENT(CHOICES), LENT(OUTPUT));
    case GIVE_UP: return signon_give_up(record_of(lent), LENT(CHOICES));
    default:
        return signon_verdict(FIRST_ONE, LENT(SYSTEM), LENT(PUBLIC_KEY), LENT(COMMITMENTS), LENT(CHALLENGES), LENT(FIRST_ANSWERS), LENT(BITS), LENT(OPENINGS));
    }
}

static struct signon_answer plain_frame(const struct lent *lent)
{
    int kind = kind_of(lent->call);
    struct bytes buffer = lent->buffers[buffer_of(kind)];
    return lent->call < WRITE_SYSTEM ? plain_read(kind, buffer) : plain_write(kind, FIRST_ONE, SECOND_ONE, buffer, BUFFER(OUTPUT));
}

static struct signon_answer plain_judged(const struct lent *lent)
{
    const struct bytes frames[FRAMES] = {BUFFER(SYSTEM),        BUFFER(PUBLIC_KEY), BUFFER(COMMITMENTS), BUFFER(CHALLENGES),
                                         BUFFER(FIRST_ANSWERS), BUFFER(BITS),       BUFFER(OPENINGS)};
    return plain_verdict(FIRST_ONE, frames);
}

struct signon_answer play_plain(const struct lent *lent)
{
    const struct card card = {BUFFER(SYSTEM), BUFFER(PUBLIC_KEY), BUFFER(SECRET_KEY), BUFFER(CHOICES)};
    switch (lent->call) {
    case CHECK_OPENING: return plain_check_opening(BUFFER(OPENINGS), FIRST_ONE);
    case HASH: return plain_hash(BUFFER(CHOICES), BUFFER(OUTPUT));
    case STAND_IN: return plain_stand_in(FIRST_ONE, SECOND_ONE, BUFFER(SYSTEM), BUFFER(PUBLIC_KEY), BUFFER(CHOICES), BUFFER(OUTPUT));
    case DRAW_PERMUTATION: return plain_draw_permutation(FIRST_ONE, BUFFER(RANDOM), BUFFER(OUTPUT));
    case DRAW_CHALLENGES: return plain_draw_challenges(FIRST_ONE, BUFFER(RANDOM), BUFFER(OUTPUT));
    case DRAW_BITS: return plain_draw_bits(FIRST_ONE, BUFFER(RANDOM), BUFFER(OUTPUT));
    case DRAW_CHOICES: return plain_draw_choices(FIRST_ONE, SECOND_ONE, BUFFER(RANDOM), BUFFER(OUTPUT));
    case MAKE_KEY: return plain_make_key(BUFFER(SYSTEM), BUFFER(RANDOM), BUFFER(OUTPUT));
    case CHECK_KEY: return plain_check_key(BUFFER(SYSTEM), BUFFER(PUBLIC_KEY), BUFFER(SECRET_KEY));
    case BEGIN: return plain_begin(record_of(lent), FIRST_ONE, &card, BUFFER(OUTPUT));
    case ANSWER: return plain_answer(record_of(lent), &card, BUFFER(CHALLENGES), BUFFER(OUTPUT));
    case OPEN: return plain_open(record_of(lent), &card, BUFFER(BITS), BUFFER(OUTPUT));
    case GIVE_UP: return plain_give_up(record_of(lent), BUFFER(CHOICES));
    case VERDICT: return plain_judged(lent);
    default: return plain_frame(lent);
    }
}
