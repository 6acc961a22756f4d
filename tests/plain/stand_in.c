/* The stand-in: a round that passes, made without a key. */
#include "round.h"

#include <string.h>

struct signon_answer plain_stand_in(size_t challenge, size_t bit, struct bytes system, struct bytes public_key, struct bytes lent, struct bytes out)
{
    if (challenge >= SIGNON_MODULUS || bit > 1)
        return bad_number();
    struct signon_answer a = read_public(system, public_key);
    if (refused(a))
        return a;
    struct public_data d = public_data_of(system, public_key);
    a = check_choices(lent, d.n, 1);
    if (!refused(a))
        a = check_room(SIGNON_STAND_IN_SIZE(d.n), out);
    if (refused(a))
        return a;
    uint8_t *w = out.at + DIGEST, *opened = w + d.n;
    memcpy(opened, lent.at + d.n, d.n);
    if (bit)
        add_scaled(&d, lent.at, (uint32_t)challenge, opened, w);
    else
        memcpy(w, lent.at, d.n);
    commitment_shown(&d, (uint8_t)challenge, bit, (struct shown){w, opened}, out.at);
    return done(SIGNON_STAND_IN_SIZE(d.n));
}
