"""The cases of the register: the verdict over honest sign-ons, over rounds of the stand-in, and over both once they are damaged."""
import signon
from card_cases import LARGE, Lent, extremes, sign_on
from frame_cases import Draft, each_place, frame_names, frame_order, frame_refusals, in_frame, inside_frames
from frame_cases import number_out_of_limits, one_missing, other_number, to_frame
from making import Call, Given, Names, absurd, every_damage, permutation, residues
from signon import DIGEST, FIRST, NONE, OPENINGS, P, SECOND, WEAK, bit_at

KINDS = 1, 2, 4, 5, 6, 7, 8
FEW = 3, 2, 3
"""n, m and N where frames are damaged; too few rounds for any grade, so that what is told of them comes before WEAK."""
ENOUGH = 3, 2, 20
"""n, m and N where rounds are damaged; enough for grade 1."""
BITS = [b"\x00\x00\x00", b"\xff\xff\xf0", b"\x6b\x1d\xa0"]
"""The bits of so many rounds, all 0, all 1 and mixed."""


class Shown:
    """What the register is shown, with the grade, well formed until it is damaged."""

    def __init__(self, rng, grade, frames):
        self.rng = rng
        self.grade = grade
        self.frames = {frame[3]: Draft.of(frame) for frame in frames}

    def given(self):
        return Given((self.grade,), tuple(draft.frame() for draft in self.frames.values()))

    def bit(self, k):
        return bit_at(self.frames[7].rest, k)


def honest(lent):
    """The seven frames of an honest sign-on."""
    commitments, answers, openings = sign_on(lent).outputs
    system, public, challenges, bits = lent.shown(1, 2, 5, 7)
    return system, public, commitments, challenges, answers, bits, openings


def honest_with_bits(rng, packed, size=ENOUGH):
    lent = Lent(rng, *size)
    lent.frames[7].rest = bytearray(packed)
    return honest(lent)


def damaged(rng, frames, damages):
    shown = Shown(rng, 1, frames)
    for damage in damages:
        damage(shown)
    return shown.given()


def applied(damage, *arguments):
    return lambda shown: damage(shown, *arguments)


# --- Sizes and grades ---


def accepted_or_weak(rng):
    """Every n and every N; each grade around the least N, and grades that there are not."""
    for n in range(2, 65):
        yield Shown(rng, 1, honest(Lent(rng, n, rng.randrange(1, n), 20)))
    for rounds in range(1, 65):
        yield Shown(rng, 1 if rounds < 31 else 2, honest(Lent(rng, 2 + rounds % 3, 1, rounds)))
    yield Shown(rng, 2, honest(Lent(rng, 64, 32, 64)))
    for rounds in (19, 20, 21, 30, 31, 32, 64):
        frames = honest(Lent(rng, 4, 2, rounds))
        yield from (Shown(rng, grade, frames) for grade in range(4))
    frames = honest(Lent(rng, 3, 1, 31))
    yield from (Shown(rng, grade, frames) for grade in (4, 255, *absurd((1, 2))))
    yield from (Shown(rng, 1, honest(lent)) for lent in extremes(20))


# --- Damages of a round ---


def opened_half_changed(shown, k, place=0):
    shown.frames[4].rest[DIGEST * (2 * k + shown.bit(k)) + place] ^= 1


def unopened_half_changed(shown, k):
    shown.frames[4].rest[DIGEST * (2 * k + 1 - shown.bit(k))] ^= 1


def residue_changed(shown, kind, place):
    rest = shown.frames[kind].rest
    rest[place] = (rest[place] + 1) % P


def challenge_changed(shown, k):
    residue_changed(shown, 5, k)


def first_answer_changed(shown, k, place=0):
    residue_changed(shown, 6, shown.frames[6].numbers[0] * k + place)


def bit_changed(shown, k):
    shown.frames[7].rest[k // 8] ^= 128 >> k % 8


def opening_changed(shown, k):
    at, rest = shown.frames[8].numbers[0] * k, shown.frames[8].rest
    rest[at], rest[at + 1] = rest[at + 1], rest[at]


ROUND_DAMAGES = [opened_half_changed, unopened_half_changed, challenge_changed, first_answer_changed, bit_changed, opening_changed]


def one_round_damaged():
    """Each damage in the first, a middle and the last round."""
    return [[applied(damage, k)] for damage in ROUND_DAMAGES for k in (0, 9, 19)]


def every_round_damaged():
    """Each round alone, and all at once in the halves that stay unopened."""
    yield from ([applied(opened_half_changed, k)] for k in range(20))
    yield [applied(unopened_half_changed, k) for k in range(20)]


def two_rounds_damaged():
    """The lower round is told, whatever is wrong in the higher."""
    wrong = [(opened_half_changed, bit_changed), (bit_changed, opened_half_changed), (opening_changed, first_answer_changed)]
    for low, high in [(0, 1), (0, 19), (9, 10), (6, 14), (18, 19)]:
        yield from ([applied(below, low), applied(above, high)] for below, above in wrong)


def public_data_changed(frames):
    """Other entries and another public vector: only rounds that use them fail."""
    for kind, frame in zip((1, 2), frames):
        for place in range(len(Draft.of(frame).rest)):
            yield [applied(residue_changed, kind, place)]


def each_byte_damaged(n):
    """Rounds 18 and 19, of which one is opened with bit 1 and one with bit 0, in each byte of the digest and of the first answer."""
    for k in (18, 19):
        yield from ([applied(opened_half_changed, k, place)] for place in range(DIGEST))
        yield from ([applied(first_answer_changed, k, place)] for place in range(n))


def rounds_damaged(rng):
    for packed in BITS:
        frames = honest_with_bits(rng, packed)
        cases = [*one_round_damaged(), *every_round_damaged(), *two_rounds_damaged(), *public_data_changed(frames)]
        yield from (damaged(rng, frames, damages) for damages in cases)
    frames = honest_with_bits(rng, BITS[-1], (7, 4, 20))
    yield from (damaged(rng, frames, damages) for damages in each_byte_damaged(7))
    frames = honest(Lent(rng, 5, 2, 64))
    yield from (damaged(rng, frames, [applied(opened_half_changed, k)]) for k in (0, 31, 32, 63))


# --- Rounds of the stand-in ---


def stand_in_for(shown, k, challenge, bit):
    """Puts in a round that the stand-in made for a challenge and a bit."""
    n = shown.frames[2].numbers[0]
    drawn = residues(shown.rng, n) + permutation(shown.rng, n)
    public_data = shown.frames[1].frame(), shown.frames[2].frame()
    (made,) = signon.stand_in(challenge, bit, *public_data, drawn, bytes(DIGEST + 2 * n)).after
    at = DIGEST * (2 * k + bit)
    shown.frames[4].rest[at : at + DIGEST] = made[:DIGEST]
    shown.frames[6].rest[n * k : n * (k + 1)] = made[DIGEST : DIGEST + n]
    shown.frames[8].rest[n * k : n * (k + 1)] = made[DIGEST + n :]


def stand_in_right(shown, k):
    stand_in_for(shown, k, shown.frames[5].rest[k], shown.bit(k))


def stand_in_of_other_bit(shown, k):
    stand_in_for(shown, k, shown.frames[5].rest[k], 1 - shown.bit(k))


def stand_in_of_other_challenge(shown, k):
    stand_in_for(shown, k, (shown.frames[5].rest[k] + 1) % P, shown.bit(k))


def public_vector_drawn(shown):
    """A public vector to which nobody has a key."""
    public = shown.frames[2].rest
    public[:] = residues(shown.rng, len(public))


def stood_in(rng):
    """All rounds of the stand-in, also without a key; one among honest ones, made for what is shown or for something else."""
    for lent in [Lent(rng, 2, 1, 20), Lent(rng, 9, 4, 31), Lent(rng, 40, 13, 20), *extremes(20)]:
        frames = honest(lent)
        every_round = [applied(stand_in_right, k) for k in range(lent.rounds)]
        yield damaged(lent.rng, frames, every_round)
        yield damaged(lent.rng, frames, [public_vector_drawn, *every_round])
    for packed in BITS:
        frames = honest_with_bits(rng, packed)
        for stood in (stand_in_right, stand_in_of_other_bit, stand_in_of_other_challenge):
            yield from (damaged(rng, frames, [applied(stood, k)]) for k in (0, 9, 19))


# --- Damages of frames, and the order ---

FRAMES_ORDER = [
    *frame_order(1),
    *frame_order(2, [0]),
    to_frame(4, one_missing),
    to_frame(4, number_out_of_limits),
    *frame_order(5, [0]),
    *frame_order(6, [0, 1]),
    *frame_order(7, [0]),
    *frame_order(8, [0, 1]),
]


def grade_wrong(shown):
    shown.grade = 3


def frames_damaged():
    """Over too few rounds: frames damaged in one and in two ways, alone and against each other; numbers that the later buffers are held
    to; a round that does not pass."""
    n, m, rounds = FEW
    yield from inside_frames(KINDS)
    for kind, numbers in [(1, (n, m)), (2, (n,)), (5, (rounds,)), (6, (n, rounds)), (8, (n, rounds))]:
        yield from each_place(kind, numbers, (P - 1, P))
    yield from every_damage(FRAMES_ORDER, list, at_once=2)
    yield from ([other_number(kind, 0)] for kind in (1, 4))
    yield [applied(opened_half_changed, 1)]


def large_damaged(rng):
    """The farthest places, and the last round."""
    frames = honest(Lent(rng, *LARGE))
    for damage in (in_frame(6, -1, P), in_frame(8, -1, 64), applied(opened_half_changed, 63)):
        yield damaged(rng, frames, [damage])


def order_damaged():
    """Over enough rounds: frames, then the grade, then the rounds."""
    failing = [applied(opened_half_changed, 5), applied(opened_half_changed, 11)]
    yield from every_damage([to_frame(1, one_missing), to_frame(8, one_missing), grade_wrong, *failing], list)


def verdict_inputs(rng):
    yield from (shown.given() for shown in accepted_or_weak(rng))
    yield from rounds_damaged(rng)
    yield from stood_in(rng)
    few, enough = honest(Lent(rng, *FEW)), honest_with_bits(rng, BITS[-1])
    yield from (damaged(rng, few, damages) for damages in frames_damaged())
    yield from large_damaged(rng)
    yield from (damaged(rng, enough, damages) for damages in order_damaged())


def verdict_call():
    return Call(
        name="verdict",
        names=Names(("grade",), frame_names(*KINDS), ("rounds",)),
        play=lambda given: signon.verdict(*given.numbers, *given.buffers),
        inputs=verdict_inputs,
        refusals=set().union(*map(frame_refusals, KINDS)) | {(WEAK, NONE), (FIRST, OPENINGS), (SECOND, OPENINGS)},
    )


REGISTER_CALLS = [verdict_call()]
