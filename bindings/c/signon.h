/* The tablet sign-on for a host in C or C++: the card of a tablet, the register that it signs on to, and what both need.

   Memory. The host lends all of it; nothing is kept between calls. A buffer is a pointer and its size in bytes; where the size is 0 the pointer may
   be NULL. A `const` buffer is read and never changed. A buffer lent for writing overlaps no other. `out` is written over its front, and what lies
   behind is kept.

   Answers. Every call takes every input, ends, and answers with a number. 0 is a success. Any other is a refusal: it names the buffer it is about and
   the place there, and a refused call has changed no byte and no record. Each call looks at its arguments in a fixed order, and tells the first
   thing that is wrong; that order is what "Refusals" lists below. A refused frame is told by the number of its kind's buffer.

   Secrets. The secret key and the choices are the host's to keep. Choices are for one sign-on: see signon_begin. */
#ifndef SIGNON_H
#define SIGNON_H

#include <stddef.h>
#include <stdint.h>

#ifdef __cplusplus
extern "C" {
#define SIGNON_ASSERT(fact, why) static_assert(fact, why)
#else
#define SIGNON_ASSERT(fact, why) _Static_assert(fact, why)
#endif

/* --- Answers --- */

struct signon_answer {
    uint8_t number; /* SIGNON_DONE, or why the call refused */
    uint8_t buffer; /* the buffer that a refusal is about */
    uint64_t place; /* the call's value where it is done; of a refusal the place in its buffer */
};

SIGNON_ASSERT(sizeof(struct signon_answer) == 16, "an answer has 16 bytes");
SIGNON_ASSERT(offsetof(struct signon_answer, number) == 0 && offsetof(struct signon_answer, buffer) == 1, "number and buffer come first");
SIGNON_ASSERT(offsetof(struct signon_answer, place) == 8, "the place has the last 8 bytes");

/* Numbers, and the place that comes with each. */
enum {
    SIGNON_DONE = 0,
    SIGNON_SHORT = 1,   /* a frame of fewer than 4 bytes, or fewer than its count calls for; place 0 */
    SIGNON_LONG = 2,    /* a frame with more bytes than its count calls for; place 0 */
    SIGNON_VERSION = 3, /* a frame's version is not 1; place 2 */
    SIGNON_KIND = 4,    /* a frame of another kind; place 3 */
    SIGNON_SHAPE = 5,   /* a number out of its limits or unlike an earlier one, a size that does not fit, an unused bit set; in a frame place 4, else 0 */
    SIGNON_VALUE = 6,   /* a residue above 250; its offset */
    SIGNON_PERM = 7,    /* not a permutation; the offset of its first byte */
    SIGNON_KEY = 8,     /* the secret key is none of this public key; the first row of A V_pi that is not zero */
    SIGNON_ROOM = 9,    /* the output is too small; the bytes needed */
    SIGNON_DRAW = 10,   /* the random bytes ran out; how many were lent */
    SIGNON_STAGE = 11,  /* the record is at another stage, or of another sign-on; place 0 */
    SIGNON_WEAK = 12,   /* no such grade, or too few rounds for it; place 0 */
    SIGNON_FIRST = 13,  /* a round of bit 0 does not pass; that round */
    SIGNON_SECOND = 14, /* a round of bit 1 does not pass; that round */
    SIGNON_SELF = 15    /* the card's own check does not pass; that round */
};

/* Buffers. */
enum {
    SIGNON_NO_BUFFER = 0, /* the refusal is about a number or the record */
    SIGNON_SYSTEM = 1,
    SIGNON_PUBLIC_KEY = 2,
    SIGNON_SECRET_KEY = 3,
    SIGNON_CHOICES = 4, /* also the stand-in's lent bytes, and the message of the hash */
    SIGNON_COMMITMENTS = 5,
    SIGNON_CHALLENGES = 6,
    SIGNON_FIRST_ANSWERS = 7,
    SIGNON_BITS = 8,
    SIGNON_OPENINGS = 9,
    SIGNON_RANDOM = 10,
    SIGNON_OUTPUT = 11
};

/* --- Numbers and sizes --- */

/* Residues are bytes 0 to 250. A permutation of n is n bytes, each of 0 to n - 1 once. The system is the matrix A = [A' | I] of m rows: A' has n - m
   residues in each, I is the identity. n is 2 to 64, m is 1 to n - 1, and a sign-on has 1 to 64 rounds. */
#define SIGNON_MODULUS 251
#define SIGNON_LEAST_N 2
#define SIGNON_MOST_N 64
#define SIGNON_MOST_ROUNDS 64

/* The bytes of each frame. */
#define SIGNON_SYSTEM_SIZE(n, m) ((size_t)6 + (size_t)(m) * ((size_t)(n) - (size_t)(m)))
#define SIGNON_PUBLIC_KEY_SIZE(n) ((size_t)5 + (size_t)(n))
#define SIGNON_SECRET_KEY_SIZE(n) ((size_t)5 + (size_t)(n))
#define SIGNON_COMMITMENTS_SIZE(rounds) ((size_t)5 + (size_t)64 * (size_t)(rounds))
#define SIGNON_CHALLENGES_SIZE(rounds) ((size_t)5 + (size_t)(rounds))
#define SIGNON_FIRST_ANSWERS_SIZE(n, rounds) ((size_t)6 + (size_t)(n) * (size_t)(rounds))
#define SIGNON_BITS_SIZE(rounds) ((size_t)5 + ((size_t)(rounds) + 7) / 8)
#define SIGNON_OPENINGS_SIZE(n, rounds) ((size_t)6 + (size_t)(n) * (size_t)(rounds))

/* The bytes of what has no frame: the choices; both key frames, one after the other; a stand-in's round and what is lent for it; a digest. */
#define SIGNON_CHOICES_SIZE(n, rounds) ((size_t)2 * (size_t)(n) * (size_t)(rounds))
#define SIGNON_KEY_SIZE(n) (SIGNON_PUBLIC_KEY_SIZE(n) + SIGNON_SECRET_KEY_SIZE(n))
#define SIGNON_STAND_IN_SIZE(n) ((size_t)32 + (size_t)2 * (size_t)(n))
#define SIGNON_STAND_IN_LENT_SIZE(n) ((size_t)2 * (size_t)(n))
#define SIGNON_DIGEST_SIZE 32
#define SIGNON_MOST_HASHED 65535

/* --- The record of a sign-on --- */

/* What the host keeps between the card's calls, and lends to each: never NULL. Any bytes are a record; all zeros are one that is idle. */
struct signon_record {
    uint8_t stage, n, m, rounds;
    uint8_t challenges[64];
};

SIGNON_ASSERT(sizeof(struct signon_record) == 68, "a record has 68 bytes");
SIGNON_ASSERT(offsetof(struct signon_record, stage) == 0 && offsetof(struct signon_record, n) == 1, "the stage and n come first");
SIGNON_ASSERT(offsetof(struct signon_record, m) == 2 && offsetof(struct signon_record, rounds) == 3, "m and the rounds come next");
SIGNON_ASSERT(offsetof(struct signon_record, challenges) == 4, "the challenges come last");

enum { SIGNON_IDLE = 0, SIGNON_COMMITTED = 1, SIGNON_ANSWERED = 2, SIGNON_CLOSED = 3 };

/* --- The card ---

   A sign-on is begin, answer and open, each lent the same system, keys and choices, and the record as the call before left it. The choices are for
   each round n residues and a permutation of n: signon_draw_choices draws them.

   Refusals of all three: STAGE for another stage; at begin SHAPE for `rounds`; the frames of system, public key and secret key, the n of a key being the
   system's; at answer and open STAGE for a record whose n or m is not the system's or whose rounds are not 1 to 64, and at open for a kept challenge above
   250; the message's frame, its rounds being the record's; choices of another size SHAPE, then round by round VALUE and PERM; KEY; ROOM; at open SELF.

   WARNING. Choices are for one sign-on, and come from fresh random bytes. Whoever is given the answers and openings of two sign-ons with the same
   choices can work out the secret key, and no call here can see that choices were lent before: keep no copy of them, never go back to an older
   record, and give up a sign-on that is not opened. */

/* From idle or closed to committed. Writes the frame of the commitments, SIGNON_COMMITMENTS_SIZE(rounds) bytes, and answers their number. The
   record takes n, m and rounds; its challenges are zeroed. Lend choices that no begin was lent before: see the warning. */
struct signon_answer signon_begin(struct signon_record *record, size_t rounds, const uint8_t *system, size_t system_size,
                                  const uint8_t *public_key, size_t public_key_size, const uint8_t *secret_key, size_t secret_key_size,
                                  const uint8_t *choices, size_t choices_size, uint8_t *out, size_t out_size);

/* From committed to answered. Takes the frame of the challenges, writes that of the first answers, SIGNON_FIRST_ANSWERS_SIZE(n, rounds) bytes, and
   answers their number. The record keeps the challenges. To answer other challenges with the same choices, from a copy of the record, gives the key
   away: see the warning. */
struct signon_answer signon_answer_challenges(struct signon_record *record, const uint8_t *system, size_t system_size,
                                              const uint8_t *public_key, size_t public_key_size, const uint8_t *secret_key,
                                              size_t secret_key_size, const uint8_t *challenges, size_t challenges_size,
                                              const uint8_t *choices, size_t choices_size, uint8_t *out, size_t out_size);

/* From answered to closed. Takes the frame of the bits, writes that of the openings, SIGNON_OPENINGS_SIZE(n, rounds) bytes, answers their number, and
   fills the choices with zeros. Before it writes, the card checks every round as the register would. */
struct signon_answer signon_open(struct signon_record *record, const uint8_t *system, size_t system_size, const uint8_t *public_key,
                                 size_t public_key_size, const uint8_t *secret_key, size_t secret_key_size, const uint8_t *bits,
                                 size_t bits_size, uint8_t *choices, size_t choices_size, uint8_t *out, size_t out_size);

/* Fills record and choices with zeros, whatever they are. Never refused: the answer is SIGNON_DONE, place 0. */
struct signon_answer signon_give_up(struct signon_record *record, uint8_t *choices, size_t choices_size);

/* --- The register --- */

enum { SIGNON_INSPECTOR = 1, SIGNON_KEEPER = 2 }; /* grades: an inspector needs 20 rounds, a register keeper 31 */

/* Whether the sign-on is accepted; answers its rounds where it is. Nothing is written.
   Refusals: the seven frames in the order of the arguments, n being the system's and the rounds the commitments'; WEAK; then the first round that does
   not pass, FIRST or SECOND by its bit. */
struct signon_answer signon_verdict(size_t grade, const uint8_t *system, size_t system_size, const uint8_t *public_key,
                                    size_t public_key_size, const uint8_t *commitments, size_t commitments_size, const uint8_t *challenges,
                                    size_t challenges_size, const uint8_t *first_answers, size_t first_answers_size, const uint8_t *bits,
                                    size_t bits_size, const uint8_t *openings, size_t openings_size);

/* --- Keys --- */

/* Whether the three frames fit and the secret key is one of this public key; place 0 where they do. Nothing is written.
   Refusals: the three frames, the n of a key being the system's; KEY. */
struct signon_answer signon_check_key(const uint8_t *system, size_t system_size, const uint8_t *public_key, size_t public_key_size,
                                      const uint8_t *secret_key, size_t secret_key_size);

/* Draws a key for the system: writes the frame of the public key and right behind it that of the secret key, SIGNON_KEY_SIZE(n) bytes, and answers how
   many random bytes were used.
   Refusals: the system's frame; ROOM; DRAW. */
struct signon_answer signon_make_key(const uint8_t *system, size_t system_size, const uint8_t *random, size_t random_size, uint8_t *out,
                                     size_t out_size);

/* --- Drawing ---

   Randomness is the host's: `random` has to come from a generator fit for keys. It is read and not changed, and tells what was drawn from it: wipe it, and
   use no byte of it again. Bytes that would favour a value are skipped, so lend about twice as many as are written, and more where the answer is DRAW.
   Each call answers how many were used.
   Refusals of all four: SHAPE for a number out of its limits; ROOM; DRAW. */

/* Writes a permutation of n, n bytes. */
struct signon_answer signon_draw_permutation(size_t n, const uint8_t *random, size_t random_size, uint8_t *out, size_t out_size);

/* Writes the frame of as many challenges, SIGNON_CHALLENGES_SIZE(rounds) bytes. */
struct signon_answer signon_draw_challenges(size_t rounds, const uint8_t *random, size_t random_size, uint8_t *out, size_t out_size);

/* Writes the frame of as many bits, SIGNON_BITS_SIZE(rounds) bytes. */
struct signon_answer signon_draw_bits(size_t rounds, const uint8_t *random, size_t random_size, uint8_t *out, size_t out_size);

/* Writes choices for a sign-on, SIGNON_CHOICES_SIZE(n, rounds) bytes. */
struct signon_answer signon_draw_choices(size_t n, size_t rounds, const uint8_t *random, size_t random_size, uint8_t *out, size_t out_size);

/* --- The stand-in --- */

/* Makes a round that passes for a challenge and a bit known beforehand, without a key: from `lent`, a vector of n residues and a permutation of n, writes
   the opened commitment (32 bytes), the first answer (n) and the opened permutation (n), SIGNON_STAND_IN_SIZE(n) bytes, and answers their number. It
   shows that one opened round tells nothing of a key.
   Refusals: SHAPE for a challenge above 250 or a bit above 1; the two frames, the key's n being the system's; `lent` (buffer SIGNON_CHOICES) of
   another size SHAPE, then VALUE and PERM; ROOM. */
struct signon_answer signon_stand_in(size_t challenge, size_t bit, const uint8_t *system, size_t system_size, const uint8_t *public_key,
                                     size_t public_key_size, const uint8_t *lent, size_t lent_size, uint8_t *out, size_t out_size);

/* --- Frames ---

   A frame is the count of the bytes after the count (two bytes, the high one first), the version 1, the kind, its numbers and its rest:

   kind  frame          numbers    rest                                      rest starts at
   1     system         n, m       A' by rows, m (n - m) residues            6
   2     public key     n          V, n residues                             5
   3     secret key     n          pi, a permutation of n                    5
   4     commitments    rounds     for each round C0 and C1, 32 bytes each   5
   5     challenges     rounds     a residue for each round                  5
   6     first answers  n, rounds  n residues for each round                 6
   7     bits           rounds     a bit for each round, highest bit first   5
   8     openings       n, rounds  a permutation of n for each round         6

   A buffer holds one frame exactly. */

/* Readers. Each answers its frame's numbers, the first plus 256 times the second, which is 0 where there is one. Nothing is written.
   Refusals: SHORT; LONG; VERSION; KIND; SHAPE; then VALUE or PERM at the lowest offset. */
#define SIGNON_FIRST_NUMBER(answer) ((size_t)((answer).place % 256))
#define SIGNON_SECOND_NUMBER(answer) ((size_t)((answer).place / 256))

struct signon_answer signon_read_system(const uint8_t *frame, size_t frame_size);
struct signon_answer signon_read_public_key(const uint8_t *frame, size_t frame_size);
struct signon_answer signon_read_secret_key(const uint8_t *frame, size_t frame_size);
struct signon_answer signon_read_commitments(const uint8_t *frame, size_t frame_size);
struct signon_answer signon_read_challenges(const uint8_t *frame, size_t frame_size);
struct signon_answer signon_read_first_answers(const uint8_t *frame, size_t frame_size);
struct signon_answer signon_read_bits(const uint8_t *frame, size_t frame_size);
struct signon_answer signon_read_openings(const uint8_t *frame, size_t frame_size);

/* Where the permutation of a round lies in the openings' frame: answers its offset, from which n bytes are the permutation. Rounds count from 0.
   Refusals: those of signon_read_openings; SHAPE for a round that is not there. */
struct signon_answer signon_check_opening(const uint8_t *openings, size_t openings_size, size_t round);

/* Writers. Each writes the frame of its numbers and of `plain`, which is the frame's rest, and answers the bytes written.
   Refusals: SHAPE for a number out of its limits; of `plain`, as the kind's buffer, SHAPE for another size, then VALUE or PERM at the lowest offset
   in it, and of bits SHAPE for an unused bit; ROOM. */
struct signon_answer signon_write_system(size_t n, size_t m, const uint8_t *plain, size_t plain_size, uint8_t *out, size_t out_size);
struct signon_answer signon_write_public_key(size_t n, const uint8_t *plain, size_t plain_size, uint8_t *out, size_t out_size);
struct signon_answer signon_write_secret_key(size_t n, const uint8_t *plain, size_t plain_size, uint8_t *out, size_t out_size);
struct signon_answer signon_write_commitments(size_t rounds, const uint8_t *plain, size_t plain_size, uint8_t *out, size_t out_size);
struct signon_answer signon_write_challenges(size_t rounds, const uint8_t *plain, size_t plain_size, uint8_t *out, size_t out_size);
struct signon_answer signon_write_first_answers(size_t n, size_t rounds, const uint8_t *plain, size_t plain_size, uint8_t *out, size_t out_size);
struct signon_answer signon_write_bits(size_t rounds, const uint8_t *plain, size_t plain_size, uint8_t *out, size_t out_size);
struct signon_answer signon_write_openings(size_t n, size_t rounds, const uint8_t *plain, size_t plain_size, uint8_t *out, size_t out_size);

/* --- The hash --- */

/* Writes the SHA-256 digest of the message, SIGNON_DIGEST_SIZE bytes, and answers their number.
   Refusals: SHAPE (buffer SIGNON_CHOICES) for more than SIGNON_MOST_HASHED bytes; ROOM. */
struct signon_answer signon_hash(const uint8_t *message, size_t message_size, uint8_t *out, size_t out_size);

#undef SIGNON_ASSERT

#ifdef __cplusplus
}
#endif

#endif
