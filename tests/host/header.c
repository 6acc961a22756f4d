/* The header alone, as C and as C++: its constants are document 01's, and its sizes those of document 01's table. */
#include "signon.h"

#ifndef __cplusplus
#define static_assert _Static_assert
#endif

#define IS(name, value) static_assert(SIGNON_##name == (value), #name)

IS(DONE, 0);
IS(SHORT, 1);
IS(LONG, 2);
IS(VERSION, 3);
IS(KIND, 4);
IS(SHAPE, 5);
IS(VALUE, 6);
IS(PERM, 7);
IS(KEY, 8);
IS(ROOM, 9);
IS(DRAW, 10);
IS(STAGE, 11);
IS(WEAK, 12);
IS(FIRST, 13);
IS(SECOND, 14);
IS(SELF, 15);

/* buffers: 1 to 3 as kinds 1 to 3, 4 choices, 5 to 9 as kinds 4 to 8, 10 random bytes, 11 output */
IS(NO_BUFFER, 0);
IS(SYSTEM, 1);
IS(PUBLIC_KEY, 2);
IS(SECRET_KEY, 3);
IS(CHOICES, 4);
IS(COMMITMENTS, 5);
IS(CHALLENGES, 6);
IS(FIRST_ANSWERS, 7);
IS(BITS, 8);
IS(OPENINGS, 9);
IS(RANDOM, 10);
IS(OUTPUT, 11);

IS(IDLE, 0);
IS(COMMITTED, 1);
IS(ANSWERED, 2);
IS(CLOSED, 3);

IS(INSPECTOR, 1);
IS(KEEPER, 2);

IS(MODULUS, 251);
IS(LEAST_N, 2);
IS(MOST_N, 64);
IS(MOST_ROUNDS, 64);
IS(MOST_HASHED, 65535);
IS(DIGEST_SIZE, 32);

/* a frame has two bytes more than its count; n = 64, m = 37 and N = 31 give the tabled counts */
IS(SYSTEM_SIZE(64, 37), 2 + 4 + 37 * 27);
IS(SYSTEM_SIZE(2, 1), 2 + 4 + 1);
IS(PUBLIC_KEY_SIZE(64), 2 + 3 + 64);
IS(SECRET_KEY_SIZE(64), 2 + 3 + 64);
IS(COMMITMENTS_SIZE(31), 2 + 3 + 64 * 31);
IS(CHALLENGES_SIZE(31), 2 + 3 + 31);
IS(FIRST_ANSWERS_SIZE(64, 31), 2 + 4 + 64 * 31);
IS(BITS_SIZE(31), 2 + 3 + 4);
IS(BITS_SIZE(32), 2 + 3 + 4);
IS(BITS_SIZE(33), 2 + 3 + 5);
IS(OPENINGS_SIZE(64, 31), 2 + 4 + 64 * 31);

IS(CHOICES_SIZE(64, 31), 2 * 64 * 31);
IS(KEY_SIZE(64), 2 * (64 + 5));
IS(STAND_IN_SIZE(64), 32 + 2 * 64);
IS(STAND_IN_LENT_SIZE(64), 2 * 64);
