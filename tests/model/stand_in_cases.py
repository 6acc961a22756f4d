"""The cases of the stand-in: every size, its numbers at and beyond their limits, and every set of damages of what it is lent."""
import signon
from frame_cases import FRAME_DAMAGES, Draft, frame_names, frame_refusals
from making import LARGEST, Call, Given, Names, absurd, every_damage, permutation, residues
from signon import CHOICES, DIGEST, NONE, OUTPUT, P, PERM, ROOM, SHAPE, VALUE


class Lent:
    """What the stand-in is lent, well formed until it is damaged."""

    def __init__(self, rng, n, m, challenge, bit):
        self.numbers = [challenge, bit]
        self.system = Draft(1, (n, m), residues(rng, m * (n - m)))
        self.public = Draft(2, (n,), residues(rng, n))
        self.choice = bytearray(residues(rng, n) + permutation(rng, n))
        self.room = DIGEST + 2 * n
        self.rng = rng

    def given(self):
        return Given(tuple(self.numbers), (self.system.frame(), self.public.frame(), bytes(self.choice), self.rng.randbytes(self.room)))


def challenge_high(lent):
    lent.numbers[0] = P


def system_value_high(lent):
    lent.system.rest[0] = P


def public_of_other_n(lent):
    lent.public.numbers[0] += 1
    lent.public.rest += b"\1"


def public_short(lent):
    lent.public.missing += 1


def vector_value_high(lent):
    lent.choice[0] = P


def permutation_repeats(lent):
    lent.choice[-1] = lent.choice[-2]


def choice_cut(lent):
    lent.choice.pop()


def room_short(lent):
    lent.room -= 1


DAMAGES = [
    challenge_high,
    system_value_high,
    public_of_other_n,
    public_short,
    vector_value_high,
    permutation_repeats,
    choice_cut,
    room_short,
]


def small(rng):
    return Lent(rng, 4, 2, rng.randrange(P), rng.randrange(2))


def damaged(rng, chosen):
    lent = small(rng)
    for damage in chosen:
        damage(lent)
    return lent


def damaged_frames(rng):
    for damage in FRAME_DAMAGES:
        lent = small(rng)
        damage(lent.system)
        yield lent
        lent = small(rng)
        damage(lent.public)
        yield lent


def other_rooms(rng):
    """Outputs from none to longer ones, which keep their rest."""
    for room in (0, 1, 8, 32, 36, 39, 40, 41, 42, 80):
        lent = small(rng)
        lent.room = room
        yield lent


def lendings(rng):
    for n in range(2, 65):
        for bit in (0, 1):
            yield Lent(rng, n, rng.randrange(1, min(n, 6)), rng.choice((0, 1, 250, rng.randrange(P))), bit)
    for challenge in (0, 249, 250, 251, 255, *absurd((7,))):
        yield Lent(rng, 3, 1, challenge, 1)
    for bit in (2, 3, 255, 256, 257, LARGEST):
        yield Lent(rng, 3, 1, 7, bit)
    yield from other_rooms(rng)
    yield from damaged_frames(rng)
    yield from every_damage(DAMAGES, lambda chosen: damaged(rng, chosen))


def stand_in_call():
    return Call(
        name="stand_in",
        names=Names(("challenge", "bit"), (*frame_names(1, 2), "vector_and_permutation", "output"), ("bytes",), ("output",)),
        play=lambda given: signon.stand_in(*given.numbers, *given.buffers),
        inputs=lambda rng: [lent.given() for lent in lendings(rng)],
        refusals={(SHAPE, NONE), (SHAPE, CHOICES), (VALUE, CHOICES), (PERM, CHOICES), (ROOM, OUTPUT)} | frame_refusals(1) | frame_refusals(2),
    )


STAND_IN_CALLS = [stand_in_call()]
