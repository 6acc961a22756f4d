/* Runs sign-ons over the card's C functions and holds every byte to what is expected. Reads from standard input, for each sign-on, what is lent
   and what has to come, as parts: a length of four bytes, highest first, and so many bytes. Exit status 1 where anything differs. */
#include "signon.h"

#include <stdio.h>
#include <stdlib.h>
#include <string.h>

_Static_assert(_Alignof(struct signon_record) == 1, "a record lies anywhere");

struct bytes {
    uint8_t *at;
    size_t size;
};

static size_t played;

static void expect(int holds, const char *what)
{
    if (holds)
        return;
    printf("sign-on %zu: %s differs\n", played, what);
    exit(1);
}

/* Of just that size, so that a tool that watches memory sees a byte outside. */
static struct bytes room_of(size_t size)
{
    struct bytes b = {malloc(size ? size : 1), size};
    if (b.at == NULL)
        abort();
    return b;
}

static struct bytes copy_of(struct bytes from)
{
    struct bytes b = room_of(from.size);
    memcpy(b.at, from.at, from.size);
    return b;
}

static int there_is_more(void)
{
    int c = getchar();
    return c != EOF && ungetc(c, stdin) != EOF;
}

static struct bytes part(void)
{
    uint8_t count[4];
    expect(fread(count, 1, 4, stdin) == 4, "the input");
    struct bytes b = room_of((size_t)count[0] << 24 | (size_t)count[1] << 16 | (size_t)count[2] << 8 | count[3]);
    expect(fread(b.at, 1, b.size, stdin) == b.size, "the input");
    return b;
}

static int same(struct bytes a, struct bytes b)
{
    return a.size == b.size && memcmp(a.at, b.at, a.size) == 0;
}

static int is_record(const struct signon_record *record, struct bytes wanted)
{
    return wanted.size == sizeof *record && memcmp(record, wanted.at, sizeof *record) == 0;
}

static int says(struct signon_answer a, int number, int buffer, uint64_t place)
{
    return a.number == number && a.buffer == buffer && a.place == place;
}

#define LENT(b) (b).at, (b).size
#define KEYS LENT(system_frame), LENT(public_key), LENT(secret_key)

static void sign_on(void)
{
    struct bytes rounds = part(), lent_record = part(), system_frame = part(), public_key = part(), secret_key = part(), choices = part();
    struct bytes challenges = part(), bits = part();
    struct bytes out[3], written[3], moved[3]; /* of begin, answer, open: what is lent, what it holds afterwards, the record afterwards */
    uint64_t sizes[3];
    for (int k = 0; k < 3; k++) {
        struct bytes size = part();
        sizes[k] = (uint64_t)size.at[0] << 8 | size.at[1];
        out[k] = part(), written[k] = part(), moved[k] = part();
    }
    struct bytes zeros = part();
    struct bytes before = copy_of(choices);
    struct signon_record record;
    memcpy(&record, lent_record.at, sizeof record);

    /* refused calls change nothing: the wrong stage, and a byte too little room */
    struct bytes room = copy_of(out[0]), lent = copy_of(out[0]);
    expect(says(signon_answer_challenges(&record, KEYS, LENT(challenges), LENT(choices), LENT(room)), 11, 0, 0), "STAGE at answer");
    expect(says(signon_open(&record, KEYS, LENT(bits), LENT(choices), LENT(room)), 11, 0, 0), "STAGE at open");
    expect(says(signon_begin(&record, rounds.at[0], KEYS, LENT(choices), room.at, sizes[0] - 1), 9, 11, sizes[0]), "ROOM at begin");
    expect(says(signon_begin(&record, rounds.at[0], NULL, 0, NULL, 0, NULL, 0, NULL, 0, NULL, 0), 1, 1, 0), "SHORT at begin");
    expect(is_record(&record, lent_record) && same(room, lent) && same(choices, before), "what a refused call leaves");

    expect(says(signon_begin(&record, rounds.at[0], KEYS, LENT(choices), LENT(out[0])), 0, 0, sizes[0]), "the answer of begin");
    expect(same(out[0], written[0]) && is_record(&record, moved[0]) && same(choices, before), "what begin leaves");

    /* another card gives up here */
    struct signon_record other = record;
    struct bytes others = copy_of(choices);
    static const struct signon_record idle;
    expect(says(signon_give_up(&other, LENT(others)), 0, 0, 0), "the answer of give up");
    expect(memcmp(&other, &idle, sizeof idle) == 0 && same(others, zeros), "what give up leaves");

    expect(says(signon_answer_challenges(&record, KEYS, LENT(challenges), LENT(choices), LENT(out[1])), 0, 0, sizes[1]), "the answer of answer");
    expect(same(out[1], written[1]) && is_record(&record, moved[1]) && same(choices, before), "what answer leaves");

    expect(says(signon_open(&record, KEYS, LENT(bits), LENT(choices), LENT(out[2])), 0, 0, sizes[2]), "the answer of open");
    expect(same(out[2], written[2]) && is_record(&record, moved[2]) && same(choices, zeros), "what open leaves");

    /* closed: nothing is answered or opened again */
    expect(says(signon_open(&record, KEYS, LENT(bits), LENT(choices), LENT(out[2])), 11, 0, 0), "STAGE at a second open");
    expect(is_record(&record, moved[2]) && same(out[2], written[2]), "what a refused open leaves");
}

int main(void)
{
    for (; there_is_more(); played++)
        sign_on();
    printf("%zu sign-ons, every byte as the model says\n", played);
    return 0;
}
