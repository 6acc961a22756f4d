/* A whole sign-on: a system and a key are made, the card and the register talk, and the register gives its verdict. On a tablet and a server each end
   has its own half; here both run in one program. Exit status 1 where a call refuses. */
#include "signon.h"

#include <stdio.h>
#include <stdlib.h>

enum { N = 64, M = 37, ROUNDS = 31, GRADE = SIGNON_KEEPER };

static uint8_t system_frame[SIGNON_SYSTEM_SIZE(N, M)];
static uint8_t keys[SIGNON_KEY_SIZE(N)]; /* the public key's frame, then the secret key's */
static uint8_t *const public_key = keys;
static uint8_t *const secret_key = keys + SIGNON_PUBLIC_KEY_SIZE(N);

#define SYSTEM system_frame, sizeof system_frame
#define PUBLIC_KEY public_key, SIGNON_PUBLIC_KEY_SIZE(N)
#define SECRET_KEY secret_key, SIGNON_SECRET_KEY_SIZE(N)
#define BUFFER(array) (array), sizeof(array)

/* The value of a call that has to be done. */
static size_t done(const char *call, struct signon_answer answer)
{
    if (answer.number == SIGNON_DONE)
        return (size_t)answer.place;
    fprintf(stderr, "%s: refused %d %d %llu\n", call, answer.number, answer.buffer, (unsigned long long)answer.place);
    exit(1);
}

static void fill_with_random(uint8_t *bytes, size_t size)
{
    FILE *source = fopen("/dev/urandom", "rb");
    if (source == NULL || fread(bytes, 1, size, source) != size) {
        perror("/dev/urandom");
        exit(1);
    }
    fclose(source);
}

/* Random bytes tell what was drawn from them, so they go as soon as they are used; written so that no compiler leaves it out. */
static void wipe(volatile uint8_t *bytes, size_t size)
{
    while (size > 0)
        bytes[--size] = 0;
}

/* The residues of A' are drawn row by row, each row as the rest of a frame of challenges. */
static void make_system(void)
{
    uint8_t entries[M * (N - M)], random[2 * (N - M) + 64], row[SIGNON_CHALLENGES_SIZE(N - M)];
    for (size_t i = 0; i < M; i++) {
        fill_with_random(BUFFER(random));
        done("signon_draw_challenges", signon_draw_challenges(N - M, BUFFER(random), BUFFER(row)));
        for (size_t j = 0; j < N - M; j++)
            entries[i * (N - M) + j] = row[5 + j];
    }
    done("signon_write_system", signon_write_system(N, M, BUFFER(entries), BUFFER(system_frame)));
}

static void make_key(void)
{
    uint8_t random[4 * N];
    fill_with_random(BUFFER(random));
    done("signon_make_key", signon_make_key(SYSTEM, BUFFER(random), BUFFER(keys)));
    wipe(BUFFER(random));
    done("signon_check_key", signon_check_key(SYSTEM, PUBLIC_KEY, SECRET_KEY));
}

/* Fresh choices, for one sign-on. */
static void draw_choices(uint8_t *choices, size_t size)
{
    static uint8_t random[4 * N * ROUNDS];
    fill_with_random(BUFFER(random));
    done("signon_draw_choices", signon_draw_choices(N, ROUNDS, BUFFER(random), choices, size));
    wipe(BUFFER(random));
}

static void tell(const char *from, const char *what, size_t size)
{
    printf("%-9s %-14s %4zu bytes\n", from, what, size);
}

int main(void)
{
    uint8_t random[2 * ROUNDS + 64], choices[SIGNON_CHOICES_SIZE(N, ROUNDS)];
    uint8_t commitments[SIGNON_COMMITMENTS_SIZE(ROUNDS)], challenges[SIGNON_CHALLENGES_SIZE(ROUNDS)];
    uint8_t first_answers[SIGNON_FIRST_ANSWERS_SIZE(N, ROUNDS)], bits[SIGNON_BITS_SIZE(ROUNDS)], openings[SIGNON_OPENINGS_SIZE(N, ROUNDS)];
    struct signon_record record = {0, 0, 0, 0, {0}};

    make_system();
    make_key();

    draw_choices(BUFFER(choices));
    tell("card", "commitments",
         done("signon_begin", signon_begin(&record, ROUNDS, SYSTEM, PUBLIC_KEY, SECRET_KEY, BUFFER(choices), BUFFER(commitments))));

    /* the register draws its challenges only now */
    fill_with_random(BUFFER(random));
    done("signon_draw_challenges", signon_draw_challenges(ROUNDS, BUFFER(random), BUFFER(challenges)));
    tell("register", "challenges", sizeof challenges);

    tell("card", "first answers",
         done("signon_answer_challenges", signon_answer_challenges(&record, SYSTEM, PUBLIC_KEY, SECRET_KEY, BUFFER(challenges),
                                                                   BUFFER(choices), BUFFER(first_answers))));

    /* and its bits only now */
    fill_with_random(BUFFER(random));
    done("signon_draw_bits", signon_draw_bits(ROUNDS, BUFFER(random), BUFFER(bits)));
    tell("register", "bits", sizeof bits);

    tell("card", "openings", done("signon_open", signon_open(&record, SYSTEM, PUBLIC_KEY, SECRET_KEY, BUFFER(bits), BUFFER(choices), BUFFER(openings))));

    printf("accepted %zu\n", done("signon_verdict", signon_verdict(GRADE, SYSTEM, PUBLIC_KEY, BUFFER(commitments), BUFFER(challenges),
                                                                   BUFFER(first_answers), BUFFER(bits), BUFFER(openings))));
    return 0;
}
