/* The hash as a call. */
#include "frames.h"
#include "sha256.h"

struct signon_answer plain_hash(struct bytes message, struct bytes out)
{
    if (message.size > SIGNON_MOST_HASHED)
        return refuse(SIGNON_SHAPE, SIGNON_CHOICES, 0);
    struct signon_answer a = check_room(DIGEST, out);
    if (refused(a))
        return a;
    plain_in_pieces(message.at, message.size, 0, out.at);
    return done(DIGEST);
}
