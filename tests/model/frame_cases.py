"""The cases of the frames: eight readers, eight writers and the opening of a named round."""
import signon
from making import LARGEST, Call, Given, Names, absurd, every_damage, flipped, pair, residues, rest_of
from signon import KIND, LONG, NONE, NUMBERS, OUTPUT, PERM, PERMUTATIONS, RESIDUES, ROOM, SHAPE, SHORT, VALUE, VERSION
from signon import Outcome, buffer_of, frame_of, rest_size, start_of


def sizes(kind):
    """Every n and every N, where that is cheap, with the other number at its limits; long bodies are few."""
    places, rounds = range(2, 65), range(1, 65)
    if kind == 1:
        ends = [(n, m) for n in places for m in sorted({1, n - 1})]
        return ends + [(7, m) for m in range(2, 6)] + [(32, 11), (45, 22), (64, 32)]
    if kind == 4:
        return [(1,), (2,), (3,), (20,), (31,), (63,), (64,)]
    if NUMBERS[kind] == "nN":
        return [(n, 1) for n in places] + [(2, k) for k in rounds[1:]] + [(5, 7), (22, 23), (64, 64)]
    return [(number,) for number in (places if NUMBERS[kind] == "n" else rounds)]


SMALL = {1: (4, 2), 2: (4,), 3: (4,), 4: (1,), 5: (3,), 6: (3, 2), 7: (11,), 8: (3, 2)}
"""Numbers of the frame that is damaged in every way."""


def numbers_around(kind, beyond):
    """The small frame's numbers with one of them at and around its limits, or far beyond."""
    small = SMALL[kind]
    for place, name in enumerate(NUMBERS[kind]):
        ends = (0, 1, 2, 3, 63, 64, 65, 66, 128, 255, *beyond)
        if name == "m":
            n = small[0]
            ends = (0, 1, n - 1, n, n + 1, 255, *beyond)
        for end in ends:
            yield (*small[:place], end, *small[place + 1 :])


def tabled_rest(rng, kind, numbers):
    """A rest of the tabled length, also for numbers out of limits."""
    return residues(rng, max(0, rest_size(kind, *pair(numbers))))


def single_bits(size):
    """Each bit alone, used ones and unused ones."""
    for k in range(8 * size):
        yield (1 << k).to_bytes(size, "big")


def spoilt_rests(rng, kind, first, second):
    """Rests with the last good and the first wrong byte at each place, with two wrong bytes, with a repeat; all zeros, all alike."""
    good = rest_of(rng, kind, first, second)
    yield bytes(len(good))
    yield bytes([250]) * len(good)
    if kind == 4:
        return  # any byte is a digest's
    if kind == 7:
        yield from single_bits(len(good))
    for j in range(len(good)):
        for byte in (0, first - 1, first, 250, 251, 255):
            yield good[:j] + bytes([byte]) + good[j + 1 :]
    for j in range(len(good) - 1):
        yield good[:j] + bytes([255, 255]) + good[j + 2 :]
        yield good[: j + 1] + good[j : j + 1] + good[j + 2 :]


# --- Readers ---


class Draft:
    """A frame that is well formed until it is damaged."""

    def __init__(self, kind, numbers, rest):
        self.version = 1
        self.kind = kind
        self.numbers = list(numbers)
        self.rest = bytearray(rest)
        self.missing = 0
        self.extra = b""

    @classmethod
    def of(cls, frame):
        """The draft of a well-formed frame."""
        kind = frame[3]
        start = start_of(kind)
        return cls(kind, frame[4:start], frame[start:])

    def frame(self):
        body = bytes([self.version, self.kind, *self.numbers]) + self.rest
        whole = len(body).to_bytes(2, "big") + body
        return whole[: len(whole) - self.missing] + self.extra


def one_missing(draft):
    draft.missing += 1


def two_more(draft):
    draft.extra += b"\1\2"


def other_version(draft):
    draft.version = 2


def other_kind(draft):
    draft.kind = draft.kind % 8 + 1


def number_out_of_limits(draft):
    draft.numbers[-1] = 0


def rest_cut(draft):
    draft.rest.pop()


def spoil(body, kind):
    """Puts in a byte that is no residue and no place; of packed bits the last, whose unused bits it sets."""
    body[-1 if kind == 7 else 0] = 255


def byte_spoilt(draft):
    spoil(draft.rest, draft.kind)


FRAME_DAMAGES = [byte_spoilt, one_missing, two_more, other_version, other_kind, number_out_of_limits, rest_cut]


def damaged_frame(rng, kind, damages):
    draft = Draft(kind, SMALL[kind], rest_of(rng, kind, *pair(SMALL[kind])))
    for damage in damages:
        damage(draft)
    return draft.frame()


def recounted(frame, count):
    return count.to_bytes(2, "big") + frame[2:]


def well_formed(rng, kind):
    for numbers in sizes(kind):
        yield frame_of(kind, numbers, rest_of(rng, kind, *pair(numbers)))


def miscounted(rng, small):
    """Bytes missing, bytes left over, and other counts; the shortest with a count that fits them."""
    count = len(small) - 2
    for length in range(len(small)):
        yield small[:length]
    for extra in (1, 2, 200):
        yield small + rng.randbytes(extra)
    for other in (0, 1, 2, 3, count - 1, count + 1, 256 * (count % 256), 256 + count, 65_535):
        yield recounted(small, other)
    for length in range(2, 9):
        yield recounted(small[:length], length - 2)


def misnamed(small):
    """Other versions and kinds."""
    for version in (0, 2, 129, 255):
        yield small[:2] + bytes([version]) + small[3:]
    for kind in (*range(10), 255):
        yield small[:3] + bytes([kind]) + small[4:]


def misshapen(rng, kind, small):
    """Numbers at and around their limits, over a rest of the tabled length and over the one that was there; a byte less or more."""
    rest = small[start_of(kind) :]
    for numbers in numbers_around(kind, ()):
        yield frame_of(kind, numbers, tabled_rest(rng, kind, numbers))
        yield frame_of(kind, numbers, rest)
    for other in (rest[:-1], rest + b"\0"):
        yield frame_of(kind, SMALL[kind], other)


def frames(rng, kind):
    """Frames of a kind, well formed and damaged in every way that document 01 tells."""
    small = damaged_frame(rng, kind, ())
    yield from well_formed(rng, kind)
    yield from miscounted(rng, small)
    yield from misnamed(small)
    yield from misshapen(rng, kind, small)
    for rest in spoilt_rests(rng, kind, *pair(SMALL[kind])):
        yield frame_of(kind, SMALL[kind], rest)
    yield from every_damage(FRAME_DAMAGES, lambda damages: damaged_frame(rng, kind, damages))
    for _ in range(3):
        yield from flipped(rng, small)
    for length in range(16):
        yield rng.randbytes(length)


def frame_refusals(kind):
    told = [SHORT, LONG, VERSION, KIND, SHAPE]
    told += [VALUE] if kind in RESIDUES else []
    told += [PERM] if kind in PERMUTATIONS else []
    return {(number, buffer_of(kind)) for number in told}


FRAME_NAMES = "system public_key secret_key commitments challenges first_answers bits openings".split()
NUMBER_NAMES = {"n": "n", "m": "m", "N": "rounds"}


def frame_names(*kinds):
    return tuple(FRAME_NAMES[kind - 1] for kind in kinds)


def reader(kind):
    (name,) = frame_names(kind)
    return Call(
        name="read_" + name,
        names=Names(buffers=(name,), values=("first", "second", "start")),
        play=lambda given: signon.read(kind, *given.buffers),
        inputs=lambda rng: [Given((), (frame,)) for frame in frames(rng, kind)],
        refusals=frame_refusals(kind),
    )


# --- Frames lent together: a damage of all that is lent takes an object with the drafts by their kinds, `frames`, and an `rng` ---


def to_frame(kind, damage):
    """The damage of one frame as a damage of all that is lent."""
    return lambda lent: damage(lent.frames[kind])


def bytes_left(count):
    def damage(draft):
        draft.missing = len(draft.frame()) - count

    return damage


def other_number(kind, place):
    """Makes a number differ from that of the other buffers, in a frame that is well formed by itself."""

    def damage(lent):
        draft = lent.frames[kind]
        draft.numbers[place] += 1
        draft.rest = bytearray(rest_of(lent.rng, kind, *pair(draft.numbers)))

    return damage


def in_frame(kind, place, byte):
    """Puts a byte into the rest of a body."""

    def damage(lent):
        lent.frames[kind].rest[place] = byte

    return damage


def inside_frames(kinds):
    """Every one and two damages of each frame, and its first bytes alone."""
    for kind in kinds:
        yield from every_damage([to_frame(kind, damage) for damage in FRAME_DAMAGES], list, at_once=2)
        for count in (0, 3, 4):
            yield [to_frame(kind, bytes_left(count))]


def each_place(kind, numbers, told):
    """Each of the bytes told at each place of a frame's rest."""
    return [[in_frame(kind, place, byte)] for place in range(rest_size(kind, *pair(numbers))) for byte in told]


def frame_order(kind, differing=()):
    """The first refusal of a frame, those of numbers that differ from an earlier buffer's, at the places told, and the last refusal."""
    return [to_frame(kind, one_missing), *(other_number(kind, place) for place in differing), to_frame(kind, byte_spoilt)]


# --- Writers ---


class Plan:
    """What a writer is given, well formed until it is damaged."""

    def __init__(self, rng, kind, numbers):
        self.kind = kind
        self.numbers = list(numbers)
        self.plain = bytearray(rest_of(rng, kind, *pair(numbers)))
        self.room = start_of(kind) + len(self.plain)

    def given(self, rng):
        return Given(tuple(self.numbers), (bytes(self.plain), rng.randbytes(self.room)))


def first_number_absurd(plan):
    plan.numbers[0] += 2**32


def last_number_out_of_limits(plan):
    plan.numbers[-1] = 65


def plain_cut(plan):
    plan.plain.pop()


def plain_spoilt(plan):
    spoil(plan.plain, plan.kind)


def room_short(plan):
    plan.room -= 1


PLAN_DAMAGES = [first_number_absurd, last_number_out_of_limits, plain_spoilt, plain_cut, room_short]


def damaged_plan(rng, kind, damages):
    plan = Plan(rng, kind, SMALL[kind])
    for damage in damages:
        damage(plan)
    return plan.given(rng)


def lend(rng, numbers, plain, room):
    return Given(tuple(numbers), (plain, rng.randbytes(room)))


def roomy(rng, kind):
    """Every size, in an output of just the bytes needed or of some more."""
    for numbers in sizes(kind):
        plan = Plan(rng, kind, numbers)
        plan.room += rng.choice((0, 0, 1, 9))
        yield plan.given(rng)


def around_need(rng, small, plain, need):
    """Outputs and plain buffers shorter and longer than needed."""
    for room in (*range(8), need - 1, need, need + 1, need + 50):
        yield lend(rng, small, plain, room)
    for length in (0, len(plain) - 1, len(plain) + 1, len(plain) + 256):
        yield lend(rng, small, plain[:length].ljust(length, b"\0"), need)


def misnumbered(rng, kind, plain, need):
    """Numbers at and around their limits and far beyond, over the plain buffer that was there and over one of the tabled length."""
    for numbers in numbers_around(kind, absurd(SMALL[kind])):
        yield lend(rng, numbers, plain, need)
        if max(numbers) < 256:
            tabled = tabled_rest(rng, kind, numbers)
            yield lend(rng, numbers, tabled, start_of(kind) + len(tabled))


def plans(rng, kind):
    """What the writer of a kind is given, well formed and damaged in every way that document 01 tells."""
    small = SMALL[kind]
    plain = rest_of(rng, kind, *pair(small))
    need = start_of(kind) + len(plain)
    yield from roomy(rng, kind)
    yield from around_need(rng, small, plain, need)
    yield from misnumbered(rng, kind, plain, need)
    for rest in spoilt_rests(rng, kind, *pair(small)):
        yield lend(rng, small, rest, need + rng.randrange(2))
    yield from every_damage(PLAN_DAMAGES, lambda damages: damaged_plan(rng, kind, damages))
    for changed in flipped(rng, plain):
        yield lend(rng, small, changed, need)


def writer_refusals(kind):
    told = {(SHAPE, NONE), (SHAPE, buffer_of(kind)), (ROOM, OUTPUT)}
    return told | {refusal for refusal in frame_refusals(kind) if refusal[0] in (VALUE, PERM)}


def writer(kind):
    (name,) = frame_names(kind)
    numbers = tuple(NUMBER_NAMES[letter] for letter in NUMBERS[kind])
    return Call(
        name="write_" + name,
        names=Names(numbers, ("plain", "output"), ("bytes",), ("output",)),
        play=lambda given: signon.write(kind, *pair(given.numbers), *given.buffers),
        inputs=lambda rng: plans(rng, kind),
        refusals=writer_refusals(kind),
    )


# --- The opening of a named round ---


def named_rounds(rng):
    """Every round of frames well formed and the rounds past their end; and damaged frames with a round that they have or have not."""
    for n, rounds in [(2, 1), (3, 2), (5, 7), (9, 64), (64, 3)]:
        frame = frame_of(8, (n, rounds), rest_of(rng, 8, n, rounds))
        for k in (*range(min(rounds, 8)), rounds - 1, rounds, rounds + 1, 255, 256, 2**32, 2**63, LARGEST):
            yield Given((k,), (frame,))
    for frame in frames(rng, 8):
        yield Given((rng.choice((0, 1, 2, 64)),), (frame,))


def opening():
    def play(given):
        arguments = (*given.buffers, *given.numbers)
        return Outcome(signon.check_opening(*arguments).answer, (signon.opening(*arguments),))

    names = Names(numbers=("round",), buffers=frame_names(8), after=("permutation",))
    return Call("opening", names, play, named_rounds, frame_refusals(8) | {(SHAPE, NONE)})


FRAME_CALLS = [*(reader(kind) for kind in range(1, 9)), *(writer(kind) for kind in range(1, 9)), opening()]
