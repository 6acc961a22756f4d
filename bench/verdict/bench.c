/* The proved verdict beside plain C, interleaved in one process. The arguments are files with the verdict program's input, which is cut into frames once,
   before a time is taken. */
#include "calls.h"
#include "pairs.h"

#include <stdio.h>
#include <stdlib.h>
#include <string.h>

enum { TURNS = 4, LONGEST = 65536 };

static uint8_t input[LONGEST];

static size_t load(const char *path)
{
    FILE *file = fopen(path, "rb");
    if (file == NULL) {
        perror(path);
        exit(1);
    }
    size_t size = fread(input, 1, sizeof input, file);
    fclose(file);
    return size;
}

/* Takes the frame in front off the rest, by its count. */
static struct bytes cut(struct bytes *rest)
{
    struct bytes frame = *rest;
    if (frame.size >= 2) {
        size_t whole = frame.at[0] * 256u + frame.at[1] + 2;
        if (whole < frame.size)
            frame.size = whole;
    }
    rest->at += frame.size;
    rest->size -= frame.size;
    return frame;
}

/* The verdict on a sign-on, cut as the verdict program cuts it: bytes left over belong to the last frame. */
static struct lent verdict_of(size_t size)
{
    static const int order[] = {SIGNON_SYSTEM, SIGNON_PUBLIC_KEY, SIGNON_COMMITMENTS, SIGNON_CHALLENGES, SIGNON_FIRST_ANSWERS, SIGNON_BITS};
    size_t skipped = size == 0 ? 0 : 1;
    struct lent lent = {VERDICT, {size == 0 ? 0 : input[0], 0}, {{NULL, 0}}};
    struct bytes rest = {input + skipped, size - skipped};
    for (size_t i = 0; i < sizeof order / sizeof *order; i++)
        lent.buffers[order[i]] = cut(&rest);
    lent.buffers[SIGNON_OPENINGS] = rest;
    return lent;
}

/* Both verifiers have to give the same answer. */
static struct signon_answer same(const char *path, size_t size, const char *damage, size_t at)
{
    struct lent lent = verdict_of(size);
    struct signon_answer ours = play_proved(&lent), plain = play_plain(&lent);
    if (ours.number != plain.number || ours.buffer != plain.buffer || ours.place != plain.place) {
        printf("%s, %s %zu: %d %d %zu, and %d %d %zu by plain C\n", path, damage, at, ours.number, ours.buffer, (size_t)ours.place, plain.number,
               plain.buffer, (size_t)plain.place);
        exit(1);
    }
    return ours;
}

/* The honest sign-on is accepted; with each byte changed in two ways, and cut short at each length, both say the same. */
static void compare(const char *path, size_t size)
{
    if (same(path, size, "undamaged at", 0).number != SIGNON_DONE) {
        printf("%s is not accepted\n", path);
        exit(1);
    }
    for (size_t i = 0; i < size; i++) {
        uint8_t kept = input[i];
        input[i] = kept ^ 1;
        same(path, size, "changed by 1 at", i);
        input[i] = kept ^ 255;
        same(path, size, "changed by 255 at", i);
        input[i] = kept;
        same(path, i, "cut at", i);
    }
    input[size] = 0;
    same(path, size + 1, "longer than", size);
}

static void has_to_accept(struct signon_answer answer)
{
    if (answer.number != SIGNON_DONE)
        abort();
}

static void judge_ours(void *with) { has_to_accept(play_proved(with)); }
static void judge_plain(void *with) { has_to_accept(play_plain(with)); }

static void measure(const char *path)
{
    size_t size = load(path);
    compare(path, size);
    struct lent lent = verdict_of(size);
    const char *name = strrchr(path, '/');
    printf("%s %.3f\n", name == NULL ? path : name + 1, median_ratio(judge_ours, judge_plain, &lent, TURNS));
}

int main(int count, char **paths)
{
    for (int i = 1; i < count; i++)
        measure(paths[i]);
    return 0;
}
