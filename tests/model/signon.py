"""The tablet sign-on, modelled from document 01.

A public call returns an Outcome: its answer, and every buffer and record that was lent for writing, as it is afterwards, in the order of
the arguments. The words in quotes below are the headings of document 01.
"""
import hashlib
from functools import wraps
from inspect import signature
from typing import NamedTuple

P = 251
DIGEST = 32
LONGEST_MESSAGE = 65_535
VERSION_NUMBER = 1
LEAST_ROUNDS = {1: 20, 2: 31}

SHORT, LONG, VERSION, KIND, SHAPE, VALUE, PERM, KEY, ROOM, DRAW, STAGE, WEAK, FIRST, SECOND, SELF = range(1, 16)
NONE, SYSTEM, PUBLIC, SECRET, CHOICES, COMMITMENTS, CHALLENGES, ANSWERS, BITS, OPENINGS, RANDOM, OUTPUT = range(12)


# --- Answers: "Refusal numbers" ---


class Done(NamedTuple):
    """A success, with its values."""

    values: tuple = ()


class Refused(NamedTuple):
    number: int
    buffer: int
    place: int


class Outcome(NamedTuple):
    answer: Done | Refused
    after: tuple = ()


class Refusal(Exception):
    """Ends a call."""

    def __init__(self, number, buffer, place):
        super().__init__(number, buffer, place)
        self.told = Refused(number, buffer, place)


def demand(holds, number, buffer, place):
    if not holds:
        raise Refusal(number, buffer, place)


def public_call(*lent):
    """Makes a public call of a function that returns its success values and what it left in the arguments named, or that ends in a
    Refusal, which "changes no lent byte and no record"."""

    def public(function):
        places = [list(signature(function).parameters).index(name) for name in lent]

        @wraps(function)
        def call(*arguments):
            try:
                values, after = function(*arguments)
            except Refusal as refusal:
                return Outcome(refusal.told, tuple(arguments[k] for k in places))
            return Outcome(Done(values), after)

        return call

    return public


# --- Vectors, permutations, the matrix: "The numbers" ---


def is_permutation(places):
    return sorted(places) == list(range(len(places)))


def permuted(vector, theta):
    """V_θ: V[θ[j]] at place j."""
    return bytes(vector[theta[j]] for j in range(len(theta)))


def product(sigma, tau):
    """στ sends j to σ[τ[j]]."""
    return bytes(sigma[tau[j]] for j in range(len(tau)))


def plus_scaled(vector, factor, other):
    return bytes((x + factor * y) % P for x, y in zip(vector, other))


class System(NamedTuple):
    n: int
    m: int
    rows: list
    """A = [A' | I], n residues to a row."""


def system_of(n, m, entries):
    width = n - m
    return System(n, m, [list(entries[i * width : (i + 1) * width]) + [int(k == i) for k in range(m)] for i in range(m)])


def times(system, x):
    """AX."""
    return bytes(sum(a * b for a, b in zip(row, x)) % P for row in system.rows)


def columns_permuted(system, sigma):
    """A_σ has column σ[j] of A at place j."""
    return System(system.n, system.m, [[row[sigma[j]] for j in range(system.n)] for row in system.rows])


# --- "One round" ---


def sha256(*parts):
    return hashlib.sha256(b"".join(parts)).digest()


class Choice(NamedTuple):
    """What the card chooses for a round."""

    r: bytes
    sigma: bytes


def commitments_of(system, pi, choice):
    c0 = sha256(choice.sigma, times(system, choice.r))
    c1 = sha256(product(pi, choice.sigma), permuted(choice.r, choice.sigma))
    return c0 + c1


def first_answer_of(public, pi, choice, challenge):
    r_sigma = permuted(choice.r, choice.sigma)
    return plus_scaled(r_sigma, challenge, permuted(public, product(pi, choice.sigma)))


def opening_of(pi, choice, bit):
    return product(pi, choice.sigma) if bit else choice.sigma


def opened_commitment(system, public, challenge, bit, answer, opened):
    """The commitment that an answer and an opened permutation call for."""
    if bit:
        return sha256(opened, plus_scaled(answer, -challenge, permuted(public, opened)))
    return sha256(opened, times(columns_permuted(system, opened), answer))


def passes(system, public, commitments, challenge, bit, answer, opened):
    committed = commitments[DIGEST:] if bit else commitments[:DIGEST]
    return committed == opened_commitment(system, public, challenge, bit, answer, opened)


# --- "Frames": the table, readers and writers ---

NUMBERS = {1: "nm", 2: "n", 3: "n", 4: "N", 5: "N", 6: "nN", 7: "N", 8: "nN"}
RESIDUES = {1, 2, 5, 6}
PERMUTATIONS = {3, 8}


def buffer_of(kind):
    """Buffers 1 to 3 are kinds 1 to 3, and 5 to 9 kinds 4 to 8."""
    return kind if kind <= 3 else kind + 1


def start_of(kind):
    """Where the rest of a body starts, after its numbers."""
    return 4 + len(NUMBERS[kind])


def packed_size(rounds):
    return (rounds + 7) // 8


def rest_size(kind, first, second):
    """How many bytes a body has after its numbers."""
    sizes = {1: second * (first - second), 4: 64 * first, 6: first * second, 7: packed_size(first), 8: first * second}
    return sizes.get(kind, first)


def within_limits(kind, first, second):
    """n is 2 to 64, m is 1 to n-1, N is 1 to 64; the second number of a kind that has one is 0."""
    limits = {"n": (2, 64), "m": (1, first - 1), "N": (1, 64)}
    asked = [limits[name] for name in NUMBERS[kind]] + [(0, 0)]
    return all(least <= number <= most for number, (least, most) in zip((first, second), asked))


def bit_at(packed, k):
    """Highest bit first."""
    return packed[k // 8] >> (7 - k % 8) & 1


def unused_bit_set(packed, rounds):
    return any(bit_at(packed, k) for k in range(rounds, 8 * len(packed)))


def stretch(whole, size, k):
    """The k-th of the stretches of one size that a buffer is made of."""
    return whole[k * size : (k + 1) * size]


def check_residues(buffer, offset, residues):
    for j, residue in enumerate(residues):
        demand(residue < P, VALUE, buffer, offset + j)


def check_permutations(buffer, offset, n, count, places):
    for k in range(count):
        demand(is_permutation(stretch(places, n, k)), PERM, buffer, offset + k * n)


def check_rest(kind, offset, first, second, rest):
    """VALUE and PERM, where the rest of the body is at the offset."""
    if kind in RESIDUES:
        check_residues(buffer_of(kind), offset, rest)
    if kind in PERMUTATIONS:
        check_permutations(buffer_of(kind), offset, first, max(second, 1), rest)


class Body(NamedTuple):
    """The numbers of a frame, the second 0 where its kind has one, and the rest."""

    first: int
    second: int
    rest: bytes


def well_shaped(kind, frame, expected):
    """Whether no SHAPE applies; what is expected is the n and N that an earlier buffer, number or record has."""
    start = start_of(kind)
    if len(frame) < start:
        return False
    first, second = frame[4], frame[5] if start == 6 else 0
    if not within_limits(kind, first, second):
        return False
    if any(expected.get(name, number) != number for name, number in zip(NUMBERS[kind], (first, second))):
        return False
    if len(frame) != start + rest_size(kind, first, second):
        return False
    return not (kind == 7 and unused_bit_set(frame[start:], first))


def read_frame(kind, frame, **expected):
    """SHORT, LONG, VERSION, KIND, SHAPE, "then bytes in order"."""
    buffer, start = buffer_of(kind), start_of(kind)
    demand(len(frame) >= 4, SHORT, buffer, 0)
    whole = frame[0] * 256 + frame[1] + 2
    demand(len(frame) >= whole, SHORT, buffer, 0)
    demand(len(frame) <= whole, LONG, buffer, 0)
    demand(frame[2] == VERSION_NUMBER, VERSION, buffer, 2)
    demand(frame[3] == kind, KIND, buffer, 3)
    demand(well_shaped(kind, frame, expected), SHAPE, buffer, 4)
    body = Body(frame[4], frame[5] if start == 6 else 0, frame[start:])
    check_rest(kind, start, *body)
    return body


def frame_of(kind, numbers, rest):
    """The frame of well-formed values."""
    count = 2 + len(numbers) + len(rest)
    return bytes([count // 256, count % 256, VERSION_NUMBER, kind, *numbers]) + rest


def over(written, output):
    """What an output holds afterwards: "a longer one keeps its rest"."""
    return written + output[len(written) :]


def check_room(need, output):
    demand(len(output) >= need, ROOM, OUTPUT, need)


@public_call()
def read(kind, frame):
    """The reader of a kind: the numbers, and where the rest of the body starts."""
    body = read_frame(kind, frame)
    return (body.first, body.second, start_of(kind)), ()


@public_call("output")
def write(kind, first, second, plain, output):
    """The writer of a kind: "numbers, values (one plain buffer ..), then ROOM". The bytes written."""
    buffer = buffer_of(kind)
    demand(within_limits(kind, first, second), SHAPE, NONE, 0)
    demand(len(plain) == rest_size(kind, first, second), SHAPE, buffer, 0)
    check_rest(kind, 0, first, second, plain)
    demand(not (kind == 7 and unused_bit_set(plain, first)), SHAPE, buffer, 0)
    frame = frame_of(kind, (first, second)[: len(NUMBERS[kind])], plain)
    check_room(len(frame), output)
    return (len(frame),), (over(frame, output),)


@public_call()
def check_opening(frame, named_round):
    body = read_frame(8, frame)
    demand(named_round < body.second, SHAPE, NONE, 0)
    return (), ()


def opening(frame, named_round):
    """The permutation of a named round, nothing where check_opening refuses."""
    if isinstance(check_opening(frame, named_round).answer, Refused):
        return b""
    n = frame[4]
    return stretch(frame[start_of(8) :], n, named_round)


# --- The hash call: "The numbers" ---


def hash_message(message):
    """The digest, 32 zeros where the message is too long."""
    if len(message) > LONGEST_MESSAGE:
        return Outcome(Refused(SHAPE, CHOICES, 0), (bytes(DIGEST),))
    return Outcome(Done(), (sha256(message),))


# --- "Drawing from lent bytes" ---


class Source:
    """Lent random bytes, taken in order; skipped ones count as used."""

    def __init__(self, lent):
        self.lent = lent
        self.used = 0

    def below(self, limit):
        """The next byte below the limit."""
        while self.used < len(self.lent):
            byte = self.lent[self.used]
            self.used += 1
            if byte < limit:
                return byte
        raise Refusal(DRAW, RANDOM, len(self.lent))

    def residues(self, count):
        return bytes(self.below(P) for _ in range(count))

    def permutation(self, n):
        places = list(range(n))
        for i in range(n - 1, 0, -1):
            j = self.below(256 - 256 % (i + 1)) % (i + 1)
            places[i], places[j] = places[j], places[i]
        return bytes(places)

    def packed_bits(self, rounds):
        packed = bytes(self.below(256) for _ in range(packed_size(rounds)))
        unused = 8 * len(packed) - rounds
        return packed[:-1] + bytes([packed[-1] >> unused << unused])


def check_places(n):
    demand(2 <= n <= 64, SHAPE, NONE, 0)


def check_rounds(rounds):
    demand(1 <= rounds <= 64, SHAPE, NONE, 0)


@public_call("output")
def draw_permutation(n, random, output):
    check_places(n)
    check_room(n, output)
    source = Source(random)
    drawn = source.permutation(n)
    return (source.used,), (over(drawn, output),)


@public_call("output")
def draw_challenges(rounds, random, output):
    check_rounds(rounds)
    check_room(5 + rounds, output)
    source = Source(random)
    drawn = frame_of(5, [rounds], source.residues(rounds))
    return (source.used,), (over(drawn, output),)


@public_call("output")
def draw_bits(rounds, random, output):
    check_rounds(rounds)
    check_room(5 + packed_size(rounds), output)
    source = Source(random)
    drawn = frame_of(7, [rounds], source.packed_bits(rounds))
    return (source.used,), (over(drawn, output),)


@public_call("output")
def draw_choices(n, rounds, random, output):
    check_places(n)
    check_rounds(rounds)
    check_room(2 * n * rounds, output)
    source = Source(random)
    drawn = b"".join(source.residues(n) + source.permutation(n) for _ in range(rounds))
    return (source.used,), (over(drawn, output),)


def kernel_vector(system, start):
    """X with AX = 0, from its first n-m residues."""
    return start + bytes(-x % P for x in times(system, start + bytes(system.m)))


def public_of(pi, x):
    """V[π[j]] = X[j]."""
    public = bytearray(len(pi))
    for j, place in enumerate(pi):
        public[place] = x[j]
    return bytes(public)


@public_call("output")
def make_key(system_frame, random, output):
    """Kind 2 and then kind 3."""
    system = system_of(*read_frame(1, system_frame))
    check_room(2 * (system.n + 5), output)
    source = Source(random)
    pi = source.permutation(system.n)
    x = kernel_vector(system, source.residues(system.n - system.m))
    drawn = frame_of(2, [system.n], public_of(pi, x)) + frame_of(3, [system.n], pi)
    return (source.used,), (over(drawn, output),)


# --- The key check: "The numbers" and the order of "Refusal numbers" ---


class Keys(NamedTuple):
    system: System
    public: bytes
    pi: bytes


def read_public_data(system_frame, public_frame):
    """Buffers 1 and 2: n is the system's."""
    system = system_of(*read_frame(1, system_frame))
    return system, read_frame(2, public_frame, n=system.n).rest


def read_keys(system_frame, public_frame, secret_frame):
    """Buffers 1 to 3."""
    system, public = read_public_data(system_frame, public_frame)
    return Keys(system, public, read_frame(3, secret_frame, n=system.n).rest)


def check_key(keys):
    for row, value in enumerate(times(keys.system, permuted(keys.public, keys.pi))):
        demand(value == 0, KEY, SECRET, row)


@public_call()
def key_check(system_frame, public_frame, secret_frame):
    check_key(read_keys(system_frame, public_frame, secret_frame))
    return (), ()


# --- "The card's three calls" ---

IDLE, COMMITTED, ANSWERED, CLOSED = range(4)


class Session(NamedTuple):
    """The record that the host lends."""

    stage: int
    n: int
    m: int
    rounds: int
    challenges: bytes


FRESH = Session(IDLE, 0, 0, 0, bytes(64))


def check_stage(session, *right):
    demand(session.stage in right, STAGE, NONE, 0)


def check_record(session, system):
    """The rest of STAGE, at answer and open."""
    demand((session.n, session.m) == (system.n, system.m), STAGE, NONE, 0)
    demand(1 <= session.rounds <= 64, STAGE, NONE, 0)


def check_kept_challenges(session):
    demand(all(c < P for c in session.challenges[: session.rounds]), STAGE, NONE, 0)


def check_choices(n, rounds, choices):
    """The length, then for each round R and σ, in order."""
    size = 2 * n
    demand(len(choices) == rounds * size, SHAPE, CHOICES, 0)
    for k in range(rounds):
        choice = stretch(choices, size, k)
        check_residues(CHOICES, k * size, choice[:n])
        check_permutations(CHOICES, k * size + n, n, 1, choice[n:])


def choices_of(n, rounds, choices):
    return [Choice(part[:n], part[n:]) for part in (stretch(choices, 2 * n, k) for k in range(rounds))]


@public_call("session", "output")
def begin(session, rounds, system_frame, public_frame, secret_frame, choices, output):
    check_stage(session, IDLE, CLOSED)
    check_rounds(rounds)
    keys = read_keys(system_frame, public_frame, secret_frame)
    system = keys.system
    check_choices(system.n, rounds, choices)
    check_key(keys)
    check_room(5 + 64 * rounds, output)
    commitments = b"".join(commitments_of(system, keys.pi, choice) for choice in choices_of(system.n, rounds, choices))
    frame = frame_of(4, [rounds], commitments)
    after = Session(COMMITTED, system.n, system.m, rounds, bytes(64))
    return (len(frame),), (after, over(frame, output))


@public_call("session", "output")
def answer(session, system_frame, public_frame, secret_frame, challenges_frame, choices, output):
    check_stage(session, COMMITTED)
    keys = read_keys(system_frame, public_frame, secret_frame)
    n, rounds = keys.system.n, session.rounds
    check_record(session, keys.system)
    challenges = read_frame(5, challenges_frame, N=rounds).rest
    check_choices(n, rounds, choices)
    check_key(keys)
    check_room(6 + n * rounds, output)
    made = choices_of(n, rounds, choices)
    answers = b"".join(first_answer_of(keys.public, keys.pi, made[k], challenges[k]) for k in range(rounds))
    frame = frame_of(6, [n, rounds], answers)
    after = session._replace(stage=ANSWERED, challenges=over(challenges, session.challenges))
    return (len(frame),), (after, over(frame, output))


def check_self(keys, choice, challenge, bit, k):
    """The card's own check: commitments and first answer anew, held to what the register would hold them to."""
    commitments = commitments_of(keys.system, keys.pi, choice)
    first_answer = first_answer_of(keys.public, keys.pi, choice, challenge)
    opened = opening_of(keys.pi, choice, bit)
    demand(passes(keys.system, keys.public, commitments, challenge, bit, first_answer, opened), SELF, CHOICES, k)


@public_call("session", "choices", "output")
def open_rounds(session, system_frame, public_frame, secret_frame, bits_frame, choices, output):
    check_stage(session, ANSWERED)
    keys = read_keys(system_frame, public_frame, secret_frame)
    n, rounds = keys.system.n, session.rounds
    check_record(session, keys.system)
    check_kept_challenges(session)
    bits = read_frame(7, bits_frame, N=rounds).rest
    check_choices(n, rounds, choices)
    check_key(keys)
    check_room(6 + n * rounds, output)
    made = choices_of(n, rounds, choices)
    for k in range(rounds):
        check_self(keys, made[k], session.challenges[k], bit_at(bits, k), k)
    openings = b"".join(opening_of(keys.pi, made[k], bit_at(bits, k)) for k in range(rounds))
    frame = frame_of(8, [n, rounds], openings)
    return (len(frame),), (session._replace(stage=CLOSED), bytes(len(choices)), over(frame, output))


@public_call("session", "choices")
def give_up(session, choices):
    """Never refused."""
    return (), (FRESH, bytes(len(choices)))


# --- The register: the verdict and its program ---


@public_call()
def verdict(grade, system_frame, public_frame, *messages):
    """Buffers 1, 2, 5 to 9, then WEAK, then the first round that does not pass."""
    system, public = read_public_data(system_frame, public_frame)
    n = system.n
    rounds, _, commitments = read_frame(4, messages[0])
    challenges = read_frame(5, messages[1], N=rounds).rest
    answers = read_frame(6, messages[2], n=n, N=rounds).rest
    bits = read_frame(7, messages[3], N=rounds).rest
    openings = read_frame(8, messages[4], n=n, N=rounds).rest
    demand(grade in LEAST_ROUNDS and rounds >= LEAST_ROUNDS[grade], WEAK, NONE, 0)
    for k in range(rounds):
        bit = bit_at(bits, k)
        shown = stretch(commitments, 2 * DIGEST, k), challenges[k], bit, stretch(answers, n, k), stretch(openings, n, k)
        demand(passes(system, public, *shown), SECOND if bit else FIRST, OPENINGS, k)
    return (rounds,), ()


PROGRAM_READS = 65_536


def cut(sent):
    """The grade and the seven frames of the verdict program's input, cut by their counts; what is left over belongs to the last."""
    sent = sent[:PROGRAM_READS]
    grade, rest = sent[0] if sent else 0, sent[1:]
    frames = []
    for _ in range(6):
        size = 2 + rest[0] * 256 + rest[1] if len(rest) >= 2 else len(rest)
        frames.append(rest[:size])
        rest = rest[size:]
    return grade, *frames, rest


def verdict_line(sent):
    """What the verdict program prints."""
    told = verdict(*cut(sent)).answer
    if isinstance(told, Refused):
        return "refused %d %d %d\n" % told
    return "accepted %d\n" % told.values


# --- The stand-in: "One round" ---


@public_call("output")
def stand_in(challenge, bit, system_frame, public_frame, vector_and_permutation, output):
    """Commitment, W and permutation of a round that passes, from no secret."""
    demand(challenge < P and bit < 2, SHAPE, NONE, 0)
    system, public = read_public_data(system_frame, public_frame)
    n = system.n
    check_choices(n, 1, vector_and_permutation)
    check_room(DIGEST + 2 * n, output)
    vector, permutation = vector_and_permutation[:n], vector_and_permutation[n:]
    if bit:
        first_answer = plus_scaled(vector, challenge, permuted(public, permutation))
        commitment = sha256(permutation, vector)
    else:
        first_answer = vector
        commitment = sha256(permutation, times(columns_permuted(system, permutation), vector))
    shown = commitment + first_answer + permutation
    return (len(shown),), (over(shown, output),)
