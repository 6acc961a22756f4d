/* The card's calls beside plain C, interleaved in one process. */
#include "calls.h"
#include "making.h"
#include "pairs.h"

#include <stdio.h>
#include <stdlib.h>
#include <string.h>

enum { MOST_BYTES = 9000, TURNS = 4 };
enum { LENT_SYSTEM, LENT_PUBLIC_KEY, LENT_SECRET_KEY, LENT_MESSAGE, LENT_CHOICES, LENT_OUT, LENT };

/* The card's calls, each with the stage that it starts from. */
enum { STEPS = 3 };
static const struct step {
    int call;
    const char *name;
    uint8_t stage;
} STEP[STEPS] = {{BEGIN, "begin", SIGNON_IDLE}, {ANSWER, "answer", SIGNON_COMMITTED}, {OPEN, "open", SIGNON_ANSWERED}};

/* What is lent to a call, with the record. */
struct lending {
    const struct step *step;
    size_t rounds;
    struct signon_record record;
    size_t sizes[LENT];
    uint8_t bytes[LENT][MOST_BYTES];
};

static const struct {
    const char *name;
    struct sizes sizes;
} GRADES[] = {{"keeper", {64, 37, 31}}, {"inspector", {32, 16, 20}}};

static struct lending make_lending(const struct step *step, struct sizes sizes)
{
    struct random random = {(uint64_t)step->call};
    struct lending l = {step, sizes.rounds, {step->stage, (uint8_t)sizes.n, (uint8_t)sizes.m, (uint8_t)sizes.rounds, {0}}, {0}, {{0}}};
    make_residues(&random, sizes.rounds, l.record.challenges);
    make_keys(&random, sizes, l.bytes[LENT_SYSTEM], l.bytes[LENT_PUBLIC_KEY], l.bytes[LENT_SECRET_KEY]);
    l.sizes[LENT_SYSTEM] = SIGNON_SYSTEM_SIZE(sizes.n, sizes.m);
    l.sizes[LENT_PUBLIC_KEY] = SIGNON_PUBLIC_KEY_SIZE(sizes.n);
    l.sizes[LENT_SECRET_KEY] = SIGNON_SECRET_KEY_SIZE(sizes.n);
    l.sizes[LENT_MESSAGE] = make_frame(&random, step->call == ANSWER ? CHALLENGES : BITS, sizes, l.bytes[LENT_MESSAGE]);
    l.sizes[LENT_CHOICES] = make_choices(&random, sizes, l.bytes[LENT_CHOICES]);
    l.sizes[LENT_OUT] = step->call == BEGIN ? SIGNON_COMMITMENTS_SIZE(sizes.rounds) : SIGNON_OPENINGS_SIZE(sizes.n, sizes.rounds);
    return l;
}

static struct bytes buffer(struct lending *l, int i)
{
    return (struct bytes){l->bytes[i], l->sizes[i]};
}

static struct signon_answer play_by(play *play, struct lending *l)
{
    struct lent lent = {l->step->call, {l->rounds, 0}, {{NULL, 0}}};
    lent.buffers[RECORD] = (struct bytes){(uint8_t *)&l->record, sizeof l->record};
    lent.buffers[SIGNON_SYSTEM] = buffer(l, LENT_SYSTEM);
    lent.buffers[SIGNON_PUBLIC_KEY] = buffer(l, LENT_PUBLIC_KEY);
    lent.buffers[SIGNON_SECRET_KEY] = buffer(l, LENT_SECRET_KEY);
    lent.buffers[SIGNON_CHALLENGES] = lent.buffers[SIGNON_BITS] = buffer(l, LENT_MESSAGE);
    lent.buffers[SIGNON_CHOICES] = buffer(l, LENT_CHOICES);
    lent.buffers[SIGNON_OUTPUT] = buffer(l, LENT_OUT);
    return play(&lent);
}

/* Both have to give the same answer, and leave the same record and bytes. */
static struct signon_answer same(const struct lending *lent)
{
    static struct lending ours, plain;
    memcpy(&ours, lent, sizeof ours);
    memcpy(&plain, lent, sizeof plain);
    struct signon_answer a = play_by(play_proved, &ours), b = play_by(play_plain, &plain);
    if (a.number != b.number || a.buffer != b.buffer || a.place != b.place || memcmp(&ours, &plain, sizeof ours) != 0) {
        printf("%s differs\n", lent->step->name);
        exit(1);
    }
    return a;
}

/* What is honest is done; with each byte changed, and with each buffer cut short, both do the same. */
static void compare(struct lending *l)
{
    if (same(l).number != SIGNON_DONE) {
        printf("%s is refused\n", l->step->name);
        exit(1);
    }
    for (int i = 0; i < LENT; i++) {
        for (size_t at = 0; at < l->sizes[i]; at++) {
            l->bytes[i][at] ^= 255;
            same(l);
            l->bytes[i][at] ^= 255;
        }
        l->sizes[i]--;
        same(l);
        l->sizes[i]++;
    }
}

/* Open zeroes the choices, and each call moves the record on: both are put back, for either side. */
struct turn {
    struct lending lent;
    struct signon_record record;
    uint8_t choices[MOST_BYTES];
};

static void turn(struct turn *turn, play *play)
{
    if (play_by(play, &turn->lent).number != SIGNON_DONE)
        abort();
    turn->lent.record = turn->record;
    memcpy(turn->lent.bytes[LENT_CHOICES], turn->choices, turn->lent.sizes[LENT_CHOICES]);
}

static void turn_ours(void *with) { turn(with, play_proved); }
static void turn_plain(void *with) { turn(with, play_plain); }

static void measure(const char *grade, struct lending *l)
{
    static struct turn t;
    t.lent = *l;
    t.record = l->record;
    memcpy(t.choices, l->bytes[LENT_CHOICES], l->sizes[LENT_CHOICES]);
    printf("%s-%s %.3f\n", grade, l->step->name, median_ratio(turn_ours, turn_plain, &t, TURNS));
}

int main(void)
{
    static struct lending l;
    for (size_t g = 0; g < sizeof GRADES / sizeof *GRADES; g++)
        for (int i = 0; i < STEPS; i++) {
            l = make_lending(&STEP[i], GRADES[g].sizes);
            compare(&l);
            measure(GRADES[g].name, &l);
        }
    return 0;
}
