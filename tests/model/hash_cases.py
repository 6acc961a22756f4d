"""The cases of the hash call: every length through two blocks, and the lengths around the limit."""
import signon
from making import Call, Given, Names
from signon import CHOICES, LONGEST_MESSAGE, SHAPE

LENGTHS = [*range(130), 1000, LONGEST_MESSAGE, LONGEST_MESSAGE + 1, LONGEST_MESSAGE + 1000]


def hash_call():
    return Call(
        name="hash",
        names=Names(buffers=("message",), after=("digest",)),
        play=lambda given: signon.hash_message(*given.buffers),
        inputs=lambda rng: [Given((), (rng.randbytes(length),)) for length in LENGTHS],
        refusals={(SHAPE, CHOICES)},
    )


HASH_CALLS = [hash_call()]
