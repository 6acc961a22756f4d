#include "frames.h"

#include <string.h>

int buffer_of(int kind)
{
    return kind < COMMITMENTS ? kind : kind + 1;
}

bool starts_with_rounds(int kind)
{
    return kind == COMMITMENTS || kind == CHALLENGES || kind == BITS;
}

static bool has_two_numbers(int kind)
{
    return kind == SYSTEM || kind == FIRST_ANSWERS || kind == OPENINGS;
}

size_t start_of(int kind)
{
    return HEADER + (has_two_numbers(kind) ? 2 : 1);
}

static size_t rest_size(int kind, size_t first, size_t second)
{
    switch (kind) {
    case SYSTEM: return second * (first - second);
    case COMMITMENTS: return 2 * DIGEST * first;
    case BITS: return packed_size(first);
    case FIRST_ANSWERS:
    case OPENINGS: return first * second;
    default: return first;
    }
}

static bool n_fits(size_t number, size_t asked)
{
    return asked == ANY ? is_n(number) : number == asked;
}

static bool rounds_fit(size_t number, size_t asked)
{
    return asked == ANY ? is_rounds(number) : number == asked;
}

static bool numbers_fit(int kind, size_t first, size_t second, size_t n, size_t rounds)
{
    if (!(starts_with_rounds(kind) ? rounds_fit(first, rounds) : n_fits(first, n)))
        return false;
    if (kind == SYSTEM)
        return 1 <= second && second < first;
    return !has_two_numbers(kind) || rounds_fit(second, rounds);
}

/* The bits of a last byte that stand for no round. */
static uint8_t unused_bits(size_t rounds)
{
    return (uint8_t)((1u << (8 * packed_size(rounds) - rounds)) - 1);
}

void clear_unused(size_t rounds, uint8_t *packed)
{
    packed[packed_size(rounds) - 1] &= (uint8_t)~unused_bits(rounds);
}

/* Of bits at the end of a frame, or by themselves. */
static bool unused_bit_set(struct bytes packed, size_t rounds)
{
    return (packed.at[packed.size - 1] & unused_bits(rounds)) != 0;
}

static struct signon_answer check_header(int kind, struct bytes frame)
{
    int buffer = buffer_of(kind);
    if (frame.size < HEADER)
        return refuse(SIGNON_SHORT, buffer, 0);
    size_t whole = frame.at[0] * 256u + frame.at[1] + 2;
    if (frame.size != whole)
        return refuse(frame.size < whole ? SIGNON_SHORT : SIGNON_LONG, buffer, 0);
    if (frame.at[2] != 1)
        return refuse(SIGNON_VERSION, buffer, 2);
    if (frame.at[3] != kind)
        return refuse(SIGNON_KIND, buffer, 3);
    return done(0);
}

struct signon_answer check_residues(int buffer, const uint8_t *at, size_t from, size_t to)
{
    for (size_t i = from; i < to; i++)
        if (at[i] >= SIGNON_MODULUS)
            return refuse(SIGNON_VALUE, buffer, i);
    return done(0);
}

static bool is_permutation(const uint8_t *s, size_t n)
{
    bool seen[SIGNON_MOST_N] = {false};
    for (size_t i = 0; i < n; i++) {
        if (s[i] >= n || seen[s[i]])
            return false;
        seen[s[i]] = true;
    }
    return true;
}

struct signon_answer check_permutations(int buffer, const uint8_t *at, size_t from, size_t to, size_t n)
{
    for (size_t i = from; i < to; i += n)
        if (!is_permutation(at + i, n))
            return refuse(SIGNON_PERM, buffer, i);
    return done(0);
}

struct signon_answer check_choices(struct bytes choices, size_t n, size_t rounds)
{
    if (choices.size != SIGNON_CHOICES_SIZE(n, rounds))
        return refuse(SIGNON_SHAPE, SIGNON_CHOICES, 0);
    for (size_t at = 0; at < choices.size; at += 2 * n) {
        struct signon_answer a = check_residues(SIGNON_CHOICES, choices.at, at, at + n);
        if (!refused(a))
            a = check_permutations(SIGNON_CHOICES, choices.at, at + n, at + 2 * n, n);
        if (refused(a))
            return a;
    }
    return done(0);
}

/* The residues or permutations of a kind, from a place of the buffer to its end. */
static struct signon_answer check_rest(int kind, struct bytes buffer, size_t from, size_t first)
{
    switch (kind) {
    case COMMITMENTS:
    case BITS: return done(0);
    case SECRET_KEY:
    case OPENINGS: return check_permutations(buffer_of(kind), buffer.at, from, buffer.size, first);
    default: return check_residues(buffer_of(kind), buffer.at, from, buffer.size);
    }
}

struct signon_answer read_frame(int kind, struct bytes frame, size_t n, size_t rounds)
{
    struct signon_answer a = check_header(kind, frame), bad_shape = refuse(SIGNON_SHAPE, buffer_of(kind), 4);
    if (refused(a))
        return a;
    if (frame.size < start_of(kind))
        return bad_shape;
    size_t first = frame.at[4], second = has_two_numbers(kind) ? frame.at[5] : 0;
    if (!numbers_fit(kind, first, second, n, rounds) || frame.size != start_of(kind) + rest_size(kind, first, second))
        return bad_shape;
    if (kind == BITS && unused_bit_set(frame, first))
        return bad_shape;
    a = check_rest(kind, frame, start_of(kind), first);
    return refused(a) ? a : done(first + 256 * second);
}

struct signon_answer plain_read(int kind, struct bytes frame)
{
    return read_frame(kind, frame, ANY, ANY);
}

struct signon_answer plain_check_opening(struct bytes openings, size_t round)
{
    struct signon_answer read = plain_read(OPENINGS, openings);
    if (refused(read))
        return read;
    return round < SIGNON_SECOND_NUMBER(read) ? done(start_of(OPENINGS) + round * SIGNON_FIRST_NUMBER(read)) : bad_number();
}

void put_heading(int kind, size_t first, size_t second, size_t rest, uint8_t *out)
{
    size_t count = start_of(kind) - 2 + rest;
    out[0] = (uint8_t)(count >> 8);
    out[1] = (uint8_t)count;
    out[2] = 1;
    out[3] = (uint8_t)kind;
    out[4] = (uint8_t)first;
    if (has_two_numbers(kind))
        out[5] = (uint8_t)second;
}

struct signon_answer plain_write(int kind, size_t first, size_t second, struct bytes plain, struct bytes out)
{
    struct signon_answer bad_shape = refuse(SIGNON_SHAPE, buffer_of(kind), 0);
    if (!numbers_fit(kind, first, second, ANY, ANY))
        return bad_number();
    if (plain.size != rest_size(kind, first, second))
        return bad_shape;
    struct signon_answer a = check_rest(kind, plain, 0, first);
    if (refused(a))
        return a;
    if (kind == BITS && unused_bit_set(plain, first))
        return bad_shape;
    size_t need = start_of(kind) + plain.size;
    a = check_room(need, out);
    if (refused(a))
        return a;
    put_heading(kind, first, second, plain.size, out.at);
    memcpy(out.at + start_of(kind), plain.at, plain.size);
    return done(need);
}
