/* The eight kinds of frames: their numbers, sizes and checks; and the checks of what has no frame. */
#ifndef PLAIN_FRAMES_H
#define PLAIN_FRAMES_H

#include "plain.h"

enum { SYSTEM = 1, PUBLIC_KEY, SECRET_KEY, COMMITMENTS, CHALLENGES, FIRST_ANSWERS, BITS, OPENINGS };
enum { ANY = 0, HEADER = 4, DIGEST = 32 };

static inline struct signon_answer done(size_t value) { return (struct signon_answer){SIGNON_DONE, SIGNON_NO_BUFFER, value}; }
static inline struct signon_answer refuse(int number, int buffer, size_t place) { return (struct signon_answer){(uint8_t)number, (uint8_t)buffer, place}; }
static inline bool refused(struct signon_answer answer) { return answer.number != SIGNON_DONE; }

static inline bool is_n(size_t number) { return SIGNON_LEAST_N <= number && number <= SIGNON_MOST_N; }
static inline bool is_rounds(size_t number) { return 1 <= number && number <= SIGNON_MOST_ROUNDS; }
static inline struct signon_answer bad_number(void) { return refuse(SIGNON_SHAPE, SIGNON_NO_BUFFER, 0); }
static inline struct signon_answer check_room(size_t need, struct bytes out) { return out.size < need ? refuse(SIGNON_ROOM, SIGNON_OUTPUT, need) : done(0); }

/* The buffer of a kind's frame, and of what a writer makes it from. */
int buffer_of(int kind);

/* Whether the first number of a kind is N, and not n. */
bool starts_with_rounds(int kind);

/* Where the rest of a frame starts, behind its numbers. */
size_t start_of(int kind);

/* How many bytes the bits of so many rounds have; and those of the last byte that stand for no round cleared. */
static inline size_t packed_size(size_t rounds) { return (rounds + 7) / 8; }
void clear_unused(size_t rounds, uint8_t *packed);

/* Reads a frame whose n and rounds have to be these, or anything within the limits for ANY. */
struct signon_answer read_frame(int kind, struct bytes frame, size_t n, size_t rounds);

/* Writes what stands before a rest of that size. */
void put_heading(int kind, size_t first, size_t second, size_t rest, uint8_t *out);

struct signon_answer check_residues(int buffer, const uint8_t *at, size_t from, size_t to);
struct signon_answer check_permutations(int buffer, const uint8_t *at, size_t from, size_t to, size_t n);
/* For each round n residues and a permutation of n. */
struct signon_answer check_choices(struct bytes choices, size_t n, size_t rounds);

#endif
