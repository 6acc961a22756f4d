/* What an honest card or register would lend. */
#include "recipes.h"

#include <stdlib.h>
#include <string.h>

#define DRAFT(name) (&drafts->buffers[SIGNON_##name])

static struct bytes as_bytes(struct draft *draft)
{
    return (struct bytes){draft->bytes, draft->size};
}

static void make_frame_of(struct random *random, int kind, struct drafts *drafts)
{
    struct draft *frame = &drafts->buffers[buffer_of(kind)];
    frame->size = make_frame(random, kind, drafts->sizes, frame->bytes);
}

/* Mostly just as long as needed; at times longer, and one time in sixteen a byte too short. */
static void make_output(struct random *random, size_t need, struct drafts *drafts)
{
    static const size_t longer[] = {0, 0, 1, 9};
    size_t size = below(random, 16) == 0 ? need - 1 : need + longer[below(random, 4)];
    DRAFT(OUTPUT)->size = make_bytes(random, size, DRAFT(OUTPUT)->bytes);
}

/* Bytes for a drawing that takes so many, with enough to skip; one time in four too few. */
static void make_lent_random(struct random *random, size_t taken, struct drafts *drafts)
{
    size_t size = below(random, 4) == 0 ? below(random, taken + 1) : 2 * taken + 64;
    DRAFT(RANDOM)->size = make_bytes(random, size, DRAFT(RANDOM)->bytes);
}

/* One time in eight about as long as the hash takes. */
static void make_message(struct random *random, struct drafts *drafts)
{
    size_t size = below(random, 8) == 0 ? SIGNON_MOST_HASHED - 2 + below(random, 5) : below(random, 300);
    DRAFT(CHOICES)->size = make_bytes(random, size, DRAFT(CHOICES)->bytes);
}

static void make_key_frames(struct random *random, struct drafts *drafts)
{
    make_keys(random, drafts->sizes, DRAFT(SYSTEM)->bytes, DRAFT(PUBLIC_KEY)->bytes, DRAFT(SECRET_KEY)->bytes);
    DRAFT(SYSTEM)->size = SIGNON_SYSTEM_SIZE(drafts->sizes.n, drafts->sizes.m);
    DRAFT(PUBLIC_KEY)->size = SIGNON_PUBLIC_KEY_SIZE(drafts->sizes.n);
    DRAFT(SECRET_KEY)->size = SIGNON_SECRET_KEY_SIZE(drafts->sizes.n);
}

static void make_choices_of(struct random *random, size_t rounds, struct drafts *drafts)
{
    struct sizes sizes = {drafts->sizes.n, drafts->sizes.m, rounds};
    DRAFT(CHOICES)->size = make_choices(random, sizes, DRAFT(CHOICES)->bytes);
}

/* A record at a stage of this sign-on, with anything where the stage says nothing. */
static void make_record(struct random *random, int stage, struct drafts *drafts)
{
    struct draft *draft = &drafts->buffers[RECORD];
    struct signon_record record;
    make_bytes(random, sizeof record, (uint8_t *)&record);
    record.stage = (uint8_t)stage;
    if (stage == SIGNON_COMMITTED || stage == SIGNON_ANSWERED) {
        record.n = (uint8_t)drafts->sizes.n;
        record.m = (uint8_t)drafts->sizes.m;
        record.rounds = (uint8_t)drafts->sizes.rounds;
    }
    if (stage == SIGNON_ANSWERED)
        make_residues(random, record.rounds, record.challenges);
    draft->size = sizeof record;
    memcpy(draft->bytes, &record, sizeof record);
}

/* What begin, answer and open are lent alike. */
static void make_card(struct random *random, int stage, size_t need, struct drafts *drafts)
{
    make_record(random, stage, drafts);
    make_key_frames(random, drafts);
    make_choices_of(random, drafts->sizes.rounds, drafts);
    make_output(random, need, drafts);
}

static struct bytes all_room(struct draft *draft)
{
    draft->size = MOST_BYTES;
    return as_bytes(draft);
}

static void take(struct draft *draft, struct signon_answer answer)
{
    if (refused(answer))
        abort();
    draft->size = answer.place;
}

/* The seven frames of a sign-on that a card and a register have run. */
static void make_sign_on(struct random *random, struct drafts *drafts)
{
    struct signon_record record = {0};
    make_key_frames(random, drafts);
    make_choices_of(random, drafts->sizes.rounds, drafts);
    make_frame_of(random, CHALLENGES, drafts);
    make_frame_of(random, BITS, drafts);
    struct card card = {as_bytes(DRAFT(SYSTEM)), as_bytes(DRAFT(PUBLIC_KEY)), as_bytes(DRAFT(SECRET_KEY)), as_bytes(DRAFT(CHOICES))};
    take(DRAFT(COMMITMENTS), plain_begin(&record, drafts->sizes.rounds, &card, all_room(DRAFT(COMMITMENTS))));
    take(DRAFT(FIRST_ANSWERS), plain_answer(&record, &card, as_bytes(DRAFT(CHALLENGES)), all_room(DRAFT(FIRST_ANSWERS))));
    take(DRAFT(OPENINGS), plain_open(&record, &card, as_bytes(DRAFT(BITS)), all_room(DRAFT(OPENINGS))));
}

/* A number below the limit, often the least or the greatest. */
static size_t often_outermost(struct random *random, size_t limit)
{
    switch (below(random, 4)) {
    case 0: return 0;
    case 1: return limit - 1;
    default: return below(random, limit);
    }
}

static void set_numbers(struct drafts *drafts, size_t first, size_t second)
{
    drafts->numbers[0] = first;
    drafts->numbers[1] = second;
}

static void make_to_write(struct random *random, int kind, struct drafts *drafts)
{
    struct draft *plain = &drafts->buffers[buffer_of(kind)];
    set_numbers(drafts, first_number(kind, drafts->sizes), second_number(kind, drafts->sizes));
    plain->size = make_rest(random, kind, drafts->sizes, plain->bytes);
    make_output(random, start_of(kind) + plain->size, drafts);
}

static void make_drawing(struct random *random, size_t taken, size_t need, struct drafts *drafts)
{
    make_lent_random(random, taken, drafts);
    make_output(random, need, drafts);
}

static void make_to_draw(struct random *random, struct drafts *drafts)
{
    size_t n = drafts->sizes.n, rounds = drafts->sizes.rounds;
    set_numbers(drafts, rounds, 0);
    switch (drafts->call) {
    case DRAW_PERMUTATION:
        set_numbers(drafts, n, 0);
        make_drawing(random, n, n, drafts);
        break;
    case DRAW_CHALLENGES: make_drawing(random, rounds, SIGNON_CHALLENGES_SIZE(rounds), drafts); break;
    case DRAW_BITS: make_drawing(random, packed_size(rounds), SIGNON_BITS_SIZE(rounds), drafts); break;
    case DRAW_CHOICES:
        set_numbers(drafts, n, rounds);
        make_drawing(random, SIGNON_CHOICES_SIZE(n, rounds), SIGNON_CHOICES_SIZE(n, rounds), drafts);
        break;
    default:
        make_frame_of(random, SYSTEM, drafts);
        make_drawing(random, 2 * n, SIGNON_KEY_SIZE(n), drafts);
    }
}

static void make_for_card(struct random *random, struct drafts *drafts)
{
    size_t n = drafts->sizes.n, rounds = drafts->sizes.rounds;
    set_numbers(drafts, rounds, 0);
    switch (drafts->call) {
    case BEGIN: make_card(random, below(random, 2) ? SIGNON_IDLE : SIGNON_CLOSED, SIGNON_COMMITMENTS_SIZE(rounds), drafts); break;
    case ANSWER:
        make_frame_of(random, CHALLENGES, drafts);
        make_card(random, SIGNON_COMMITTED, SIGNON_FIRST_ANSWERS_SIZE(n, rounds), drafts);
        break;
    case OPEN:
        make_frame_of(random, BITS, drafts);
        make_card(random, SIGNON_ANSWERED, SIGNON_OPENINGS_SIZE(n, rounds), drafts);
        break;
    default:
        make_record(random, (int)below(random, SIGNON_CLOSED + 2), drafts);
        make_choices_of(random, rounds, drafts);
    }
}

void make_honest(struct random *random, struct drafts *drafts)
{
    switch (drafts->call) {
    case CHECK_OPENING:
        set_numbers(drafts, often_outermost(random, drafts->sizes.rounds), 0);
        make_frame_of(random, OPENINGS, drafts);
        break;
    case HASH:
        make_message(random, drafts);
        make_output(random, DIGEST, drafts);
        break;
    case STAND_IN:
        set_numbers(drafts, often_outermost(random, SIGNON_MODULUS), below(random, 2));
        make_key_frames(random, drafts);
        make_choices_of(random, 1, drafts);
        make_output(random, SIGNON_STAND_IN_SIZE(drafts->sizes.n), drafts);
        break;
    case DRAW_PERMUTATION:
    case DRAW_CHALLENGES:
    case DRAW_BITS:
    case DRAW_CHOICES:
    case MAKE_KEY: make_to_draw(random, drafts); break;
    case CHECK_KEY: make_key_frames(random, drafts); break;
    case BEGIN:
    case ANSWER:
    case OPEN:
    case GIVE_UP: make_for_card(random, drafts); break;
    case VERDICT:
        set_numbers(drafts, below(random, 2) ? SIGNON_INSPECTOR : SIGNON_KEEPER, 0);
        make_sign_on(random, drafts);
        break;
    default:
        if (drafts->call < WRITE_SYSTEM)
            make_frame_of(random, kind_of(drafts->call), drafts);
        else
            make_to_write(random, kind_of(drafts->call), drafts);
    }
}
