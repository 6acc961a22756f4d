/* One call on well-formed input, with what is named marked as undefined: valgrind then tells each branch and each index that hangs on it.

       flow begin|answer|open|draw_choices|make_key pi|R|sigma|V|random ..

   pi is the secret key's permutation, R and sigma are the choices', V is the public key's vector, random are the bytes lent for a drawing. The exit status
   is the answer's number. */
#include "making.h"

#include <string.h>
#include <valgrind/memcheck.h>

enum { N = 64, M = 37, ROUNDS = 31 };

static uint8_t system_frame[SIGNON_SYSTEM_SIZE(N, M)], public_key[SIGNON_PUBLIC_KEY_SIZE(N)], secret_key[SIGNON_SECRET_KEY_SIZE(N)];
static uint8_t challenges[SIGNON_CHALLENGES_SIZE(ROUNDS)], bits[SIGNON_BITS_SIZE(ROUNDS)], choices[SIGNON_CHOICES_SIZE(N, ROUNDS)];
static uint8_t random_bytes[4 * N * ROUNDS], out[4 * N * ROUNDS]; /* enough for each */

#define BUFFER(array) (array), sizeof(array)
#define KEYS BUFFER(system_frame), BUFFER(public_key), BUFFER(secret_key)

static void make_lending(void)
{
    struct random random = {1};
    struct sizes sizes = {N, M, ROUNDS};
    make_keys(&random, sizes, system_frame, public_key, secret_key);
    make_frame(&random, CHALLENGES, sizes, challenges);
    make_frame(&random, BITS, sizes, bits);
    make_choices(&random, sizes, choices);
    make_residues(&random, sizeof random_bytes, random_bytes);
}

static int is(const char *name, const char *other)
{
    return strcmp(name, other) == 0;
}

static void mark_choices(size_t from)
{
    for (size_t k = 0; k < ROUNDS; k++)
        VALGRIND_MAKE_MEM_UNDEFINED(choices + 2 * N * k + from, N);
}

static void mark(const char *name)
{
    if (is(name, "pi"))
        VALGRIND_MAKE_MEM_UNDEFINED(secret_key + start_of(SECRET_KEY), N);
    if (is(name, "V"))
        VALGRIND_MAKE_MEM_UNDEFINED(public_key + start_of(PUBLIC_KEY), N);
    if (is(name, "R"))
        mark_choices(0);
    if (is(name, "sigma"))
        mark_choices(N);
    if (is(name, "random"))
        VALGRIND_MAKE_MEM_UNDEFINED(random_bytes, sizeof random_bytes);
}

static struct signon_answer play(const char *call, struct signon_record *record)
{
    if (is(call, "begin"))
        return signon_begin(record, ROUNDS, KEYS, BUFFER(choices), BUFFER(out));
    if (is(call, "answer"))
        return signon_answer_challenges(record, KEYS, BUFFER(challenges), BUFFER(choices), BUFFER(out));
    if (is(call, "open"))
        return signon_open(record, KEYS, BUFFER(bits), BUFFER(choices), BUFFER(out));
    if (is(call, "draw_choices"))
        return signon_draw_choices(N, ROUNDS, BUFFER(random_bytes), BUFFER(out));
    return signon_make_key(BUFFER(system_frame), BUFFER(random_bytes), BUFFER(out));
}

static struct signon_record record_for(const char *call)
{
    struct signon_record record = {SIGNON_IDLE, N, M, ROUNDS, {0}};
    if (is(call, "answer"))
        record.stage = SIGNON_COMMITTED;
    if (is(call, "open"))
        record.stage = SIGNON_ANSWERED;
    memcpy(record.challenges, challenges + start_of(CHALLENGES), ROUNDS);
    return record;
}

int main(int count, char **arguments)
{
    if (count < 3)
        return 2;
    make_lending();
    struct signon_record record = record_for(arguments[1]);
    for (int i = 2; i < count; i++)
        mark(arguments[i]);
    struct signon_answer answer = play(arguments[1], &record);
    VALGRIND_MAKE_MEM_DEFINED(&answer, sizeof answer);
    return answer.number;
}
