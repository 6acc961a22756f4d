/* The register's verdict. */
#include "round.h"

static struct signon_answer read_frames(const struct bytes frames[FRAMES])
{
    static const int kinds[FRAMES] = {SYSTEM, PUBLIC_KEY, COMMITMENTS, CHALLENGES, FIRST_ANSWERS, BITS, OPENINGS};
    size_t n = ANY, rounds = ANY;
    for (int i = 0; i < FRAMES; i++) {
        struct signon_answer a = read_frame(kinds[i], frames[i], n, rounds);
        if (refused(a))
            return a;
        if (i == OF_SYSTEM)
            n = frames[i].at[4];
        if (i == OF_COMMITMENTS)
            rounds = frames[i].at[4];
    }
    return done(rounds);
}

static bool enough(size_t grade, size_t rounds)
{
    return (grade == SIGNON_INSPECTOR && rounds >= 20) || (grade == SIGNON_KEEPER && rounds >= 31);
}

static const uint8_t *rest_of(int kind, struct bytes frame)
{
    return frame.at + start_of(kind);
}

struct signon_answer plain_verdict(size_t grade, const struct bytes frames[FRAMES])
{
    struct signon_answer read = read_frames(frames);
    if (refused(read))
        return read;
    size_t rounds = read.place;
    if (!enough(grade, rounds))
        return refuse(SIGNON_WEAK, SIGNON_NO_BUFFER, 0);
    struct public_data d = public_data_of(frames[OF_SYSTEM], frames[OF_PUBLIC_KEY]);
    const uint8_t *commitments = rest_of(COMMITMENTS, frames[OF_COMMITMENTS]), *challenges = rest_of(CHALLENGES, frames[OF_CHALLENGES]);
    const uint8_t *answers = rest_of(FIRST_ANSWERS, frames[OF_FIRST_ANSWERS]), *openings = rest_of(OPENINGS, frames[OF_OPENINGS]);
    for (size_t k = 0; k < rounds; k++) {
        bool bit = bit_of(rest_of(BITS, frames[OF_BITS]), k);
        struct shown shown = {answers + k * d.n, openings + k * d.n};
        if (!passes(&d, challenges[k], bit, commitments + DIGEST * (2 * k + bit), shown))
            return refuse(bit ? SIGNON_SECOND : SIGNON_FIRST, SIGNON_OPENINGS, k);
    }
    return done(rounds);
}
