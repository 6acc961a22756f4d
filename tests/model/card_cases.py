"""The cases of the card: the key check, begin, answer, open and giving up.

Begin, answer and open share honest sign-ons, in which each is given the record as the call before left it. The other cases of a call are
each a lending of its own that is not refused, and then damaged, often in two ways of which the first in document 01's order has to be told.
"""
from collections.abc import Callable
from functools import cache
from itertools import permutations
from random import Random
from typing import NamedTuple

import signon
from frame_cases import Draft, each_place, frame_names, frame_order, frame_refusals, in_frame, inside_frames
from frame_cases import one_missing, other_number, to_frame
from making import Call, Given, Highest, Lowest, Names, absurd, every_damage, flipped, permutation, residues, rest_of, valid_key
from signon import ANSWERED, CHOICES, CLOSED, COMMITTED, FRESH, IDLE, KEY, NONE, OUTPUT, P, PERM, ROOM, SECRET, SHAPE, STAGE, VALUE
from signon import Outcome, Session

SMALL = PLACES, ROWS, ROUNDS = 5, 3, 3
"""n, m and N of what is damaged, so that there is a middle row and a middle round."""
CHOICE = 2 * PLACES
LARGE = 64, 1, 64
"""The most places and rounds."""


# --- The record in a case: 68 bytes ---

STAGE_AT, N_AT, M_AT, ROUNDS_AT, CHALLENGES_AT = range(5)
RECORD_SIZE = CHALLENGES_AT + 64


def record_of(session):
    return bytes([session.stage, session.n, session.m, session.rounds]) + session.challenges


def session_of(record):
    return Session(*record[:CHALLENGES_AT], record[CHALLENGES_AT:])


def over_record(call):
    """How a call is played whose first buffer is the record."""

    def play(given):
        record, *others = given.buffers
        answer, (session, *left) = call(session_of(record), *given.numbers, *others)
        return Outcome(answer, (record_of(session), *left))

    return play


# --- What the card is lent ---


class Lent:
    """What the card is lent for a sign-on, well formed and with a valid key until it is damaged. Begin is given the number as N; an output
    has so many spare bytes beyond those needed."""

    def __init__(self, rng, n, m, rounds):
        entries, public, pi = valid_key(rng, n, m)
        drafts = [Draft(1, (n, m), entries), Draft(2, (n,), public), Draft(3, (n,), pi)]
        drafts += [Draft(kind, (rounds,), rest_of(rng, kind, rounds, 0)) for kind in (5, 7)]
        self.rng = rng
        self.n = n
        self.rounds = rounds
        self.number = rounds
        self.record = bytearray(record_of(FRESH))
        self.frames = {draft.kind: draft for draft in drafts}
        self.choices = bytearray(b"".join(residues(rng, n) + permutation(rng, n) for _ in range(rounds)))
        self.spare = 0

    def shown(self, *kinds):
        return tuple(self.frames[kind].frame() for kind in kinds)

    def output(self, need):
        return self.rng.randbytes(max(0, need + self.spare))

    def keys_given(self):
        return Given((), self.shown(1, 2, 3))

    def begin_given(self):
        output = self.output(5 + 64 * self.rounds)
        return Given((self.number,), (bytes(self.record), *self.shown(1, 2, 3), bytes(self.choices), output))

    def message_given(self, kind):
        output = self.output(6 + self.n * self.rounds)
        return Given((), (bytes(self.record), *self.shown(1, 2, 3, kind), bytes(self.choices), output))


def record_to_begin(rng, size):
    """Idle or closed, and any other bytes."""
    return bytes([rng.choice((IDLE, CLOSED))]) + rng.randbytes(RECORD_SIZE - 1)


def record_to_answer(rng, size):
    """Committed, and any challenge bytes."""
    return bytes([COMMITTED, *size]) + rng.randbytes(64)


def record_to_open(rng, size):
    """Answered, with challenges for each round, and any bytes after them."""
    kept = residues(rng, size[-1])
    return bytes([ANSWERED, *size]) + kept + rng.randbytes(64 - len(kept))


# --- Damages; those of a frame are in frame_cases.py ---


def in_record(place, byte):
    def damage(lent):
        lent.record[place] = byte

    return damage


def kept_zeroed(lent):
    lent.record[CHALLENGES_AT:] = bytes(64)


def number_given(number):
    def damage(lent):
        lent.number = number

    return damage


def in_choices(place, byte):
    def damage(lent):
        lent.choices[place] = byte

    return damage


def repeat_in_choices(place):
    """Puts in the byte before once more."""

    def damage(lent):
        lent.choices[place] = lent.choices[place - 1]

    return damage


def choices_of(length):
    """Cuts the choices, or goes on with the first rounds again."""

    def damage(lent):
        lent.choices = (lent.choices * 20)[:length]

    return damage


def choices_zeroed(lent):
    lent.choices = bytearray(len(lent.choices))


def row_not_zero(row):
    """Makes one row of A V_π not zero, and no other."""

    def damage(lent):
        n, m = lent.frames[1].numbers
        place = lent.frames[3].rest[n - m + row]
        public = lent.frames[2].rest
        public[place] = (public[place] + 1) % P

    return damage


def key_places_exchanged(lent):
    pi = lent.frames[3].rest
    pi[-2], pi[-1] = pi[-1], pi[-2]


def room_beyond(spare):
    def damage(lent):
        lent.spare = spare

    return damage


# --- The calls ---


class Form(NamedTuple):
    """What a call of the card takes."""

    play: Callable[[Given], Outcome]
    given: Callable[[Lent], Given]
    record: Callable[[Random, tuple], bytes]
    """A record that is not refused, where one is lent."""
    kinds: tuple
    """The kinds of its frames."""
    order: list
    """Damages in the order in which their refusals are told."""

    def ready(self, rng, size=SMALL):
        """A lending that is not refused."""
        lent = Lent(rng, *size)
        lent.record = bytearray(self.record(rng, size))
        return lent

    def damaged(self, rng, damages, size=SMALL):
        lent = self.ready(rng, size)
        for damage in damages:
            damage(lent)
        return self.given(lent)


KEYS_ORDER = [*frame_order(1), *frame_order(2, [0]), *frame_order(3, [0])]
CHOICES_ORDER = [choices_of(CHOICE * ROUNDS - 1), in_choices(PLACES - 1, P), repeat_in_choices(CHOICE - 1)]
END_ORDER = [*CHOICES_ORDER, key_places_exchanged, room_beyond(-1)]
WRONG_STAGE = in_record(STAGE_AT, 4)
OTHER_N = in_record(N_AT, PLACES + 1)
KEPT_HIGH = in_record(CHALLENGES_AT + ROUNDS - 1, P)

KEY_CHECK = Form(
    play=lambda given: signon.key_check(*given.buffers),
    given=Lent.keys_given,
    record=record_to_begin,
    kinds=(1, 2, 3),
    order=[*KEYS_ORDER, key_places_exchanged],
)
BEGIN = Form(
    play=over_record(signon.begin),
    given=Lent.begin_given,
    record=record_to_begin,
    kinds=(1, 2, 3),
    order=[WRONG_STAGE, number_given(65), *KEYS_ORDER, *END_ORDER],
)
ANSWER = Form(
    play=over_record(signon.answer),
    given=lambda lent: lent.message_given(5),
    record=record_to_answer,
    kinds=(1, 2, 3, 5),
    order=[WRONG_STAGE, *KEYS_ORDER, OTHER_N, *frame_order(5, [0]), *END_ORDER],
)
OPEN = Form(
    play=over_record(signon.open_rounds),
    given=lambda lent: lent.message_given(7),
    record=record_to_open,
    kinds=(1, 2, 3, 7),
    order=[WRONG_STAGE, *KEYS_ORDER, OTHER_N, KEPT_HIGH, *frame_order(7, [0]), *END_ORDER],
)


# --- Honest sign-ons ---


class SignOn(NamedTuple):
    """The calls of a sign-on as they were given, and the outputs."""

    begin: Given
    answer: Given
    open: Given
    outputs: tuple

    def begin_again(self):
        """A begin with the record and the choices that open left."""
        record, choices, _ = OPEN.play(self.open).after
        return Given(self.begin.numbers, (record, *self.begin.buffers[1:4], choices, b"little room"))


def sign_on(lent):
    """Plays a sign-on, each call with the record as the one before left it; what is lent is then as open left it."""
    begun = BEGIN.given(lent)
    lent.record, commitments = BEGIN.play(begun).after
    answered = ANSWER.given(lent)
    lent.record, answers = ANSWER.play(answered).after
    opened = OPEN.given(lent)
    lent.record, lent.choices, openings = OPEN.play(opened).after
    return SignOn(begun, answered, opened, (commitments, answers, openings))


def sizes(rng):
    """n, m and N: every n, every N, every m of one n; many rounds of many places are few."""
    for n in range(2, 65):
        yield n, rng.choice((1, n - 1, rng.randrange(1, n), rng.randrange(1, n))), 1 + n % 3
    for rounds in range(1, 65):
        n = 2 + rounds % 5
        yield n, rng.randrange(1, n), rounds
    for m in range(1, 9):
        yield 9, m, 2
    yield from [(48, 1, 20), (33, 20, 31), (64, 32, 64)]


def extremes(rounds):
    """Residues that are all 250, in the longest rows, in the most rows and in the largest system; and residues that are all 0."""
    high = [Lent(Highest(m), 64, m, rounds) for m in (1, 63, 32)]
    return [*high, Lent(Lowest(0), 5, 3, rounds)]


@cache
def sign_ons():
    """Honest sign-ons, each begun with the record that the one before left."""
    rng = Random("sign-ons")
    played, record = [], record_of(FRESH)
    for lent in [*(Lent(rng, *size) for size in sizes(rng)), *extremes(2)]:
        lent.record = record
        lent.spare = rng.choice((0, 0, 1, 9))
        played.append(sign_on(lent))
        record = lent.record
    return played


# --- Damaged lendings ---


def frames_and_keys(form):
    """Frames damaged in one and in two ways, each of their bytes at limits, wrong keys."""
    yield from inside_frames(form.kinds)
    for kind, numbers in [(1, (PLACES, ROWS)), (2, (PLACES,)), (3, (PLACES,))]:
        yield from each_place(kind, numbers, (0, PLACES, P - 1, P))
    yield from every_damage([row_not_zero(row) for row in range(ROWS)], list)


def choices_damaged():
    """Other lengths; each byte at its limits, each place of a permutation repeated; every two damages of the first two rounds; all zeros."""
    for length in (0, 1, CHOICE * (ROUNDS - 1), CHOICE * ROUNDS - 1, CHOICE * ROUNDS + 1, CHOICE * (ROUNDS + 1), CHOICE * ROUNDS + 256):
        yield [choices_of(length)]
    for k in range(ROUNDS):
        for place in range(CHOICE * k, CHOICE * k + PLACES):
            yield from ([in_choices(place, byte)] for byte in (P - 1, P))
            yield from ([in_choices(place + PLACES, byte)] for byte in (PLACES, 255))
        for place in range(CHOICE * k + PLACES + 1, CHOICE * (k + 1)):
            yield [repeat_in_choices(place)]
    later = [in_choices(CHOICE, P), repeat_in_choices(2 * CHOICE - 1)]
    yield from every_damage([*CHOICES_ORDER, *later], list, at_once=2)
    yield [choices_zeroed]


def lending_damaged(form):
    """What begin, answer and open have in common: stages, choices, rooms, and every two damages of the whole order."""
    yield from ([in_record(STAGE_AT, stage)] for stage in (*range(6), *range(127, 132), 254, 255))
    yield from frames_and_keys(form)
    yield from choices_damaged()
    yield from ([room_beyond(spare)] for spare in (-1000, -8, -2, -1, 0, 1, 2, 50))
    yield from every_damage(form.order, list, at_once=2)


def record_damaged(form):
    """Numbers of the record that do not fit the system, the message or the choices, also beside a wrong key and a wrong message."""
    message = form.kinds[-1]
    unfit = [in_record(N_AT, n) for n in (0, ROWS, PLACES - 1, PLACES + 1, 64, 255)]
    unfit += [in_record(M_AT, m) for m in (0, 1, ROWS - 1, ROWS + 1, PLACES, 255)]
    unfit += [in_record(ROUNDS_AT, rounds) for rounds in (0, 65, 66, 128, 255)]
    yield from ([kept_zeroed, in_record(ROUNDS_AT, rounds)] for rounds in (0, 1, ROUNDS - 1, ROUNDS, ROUNDS + 1, 63, 64, 65, 66, 255))
    for damage in unfit:
        yield [damage]
        yield [to_frame(3, one_missing), damage]
        yield [damage, to_frame(message, one_missing)]
    more = [in_record(ROUNDS_AT, ROUNDS + 1), other_number(message, 0)]
    yield more
    yield [*more, choices_of(CHOICE * (ROUNDS + 1))]


def begin_damaged():
    yield from lending_damaged(BEGIN)
    yield from ([number_given(number)] for number in (0, 1, ROUNDS - 1, ROUNDS + 1, 63, 64, 65, 66, 255, *absurd((ROUNDS,))))


def answer_damaged():
    yield from lending_damaged(ANSWER)
    yield from record_damaged(ANSWER)
    yield from each_place(5, (ROUNDS,), (0, P - 1, P, 255))


def open_damaged():
    """A challenge above 250 is told where it is one of the first N."""
    yield from lending_damaged(OPEN)
    yield from record_damaged(OPEN)
    yield from ([in_frame(7, 0, packed)] for packed in (*range(0, 256, 32), 1, 2, 4, 8, 16))
    for k in (*range(ROUNDS + 2), 31, 62, 63):
        yield from ([in_record(CHALLENGES_AT + k, kept)] for kept in (P - 1, P, 255))


def flips(form, rng, looked_at):
    """Each byte changed of the buffers that are looked at, which are the first so many."""
    numbers, buffers = form.given(form.ready(rng))
    for k in range(looked_at):
        for changed in flipped(rng, buffers[k]):
            yield Given(numbers, (*buffers[:k], changed, *buffers[k + 1 :]))


def large_damaged(form, rng):
    """The farthest places, and the most room."""
    no_room, last_residue = room_beyond(-10_000), 127 * 64 - 1
    for damages in ([in_choices(last_residue, P), no_room], [repeat_in_choices(last_residue + 64), no_room], [room_beyond(-1)]):
        yield form.damaged(rng, damages, LARGE)


# --- The inputs of each call ---


def key_check_inputs(rng):
    """Valid keys of every size; a system's keys of every permutation; rows of a large system; damages."""
    for n in range(2, 65):
        for m in sorted({1, rng.randrange(1, n), n - 1}):
            yield Lent(rng, n, m, 1).keys_given()
    yield from (lent.keys_given() for lent in extremes(1))
    lent = Lent(rng, 4, 2, 1)
    for pi in permutations(range(4)):
        lent.frames[3].rest = bytearray(pi)
        yield lent.keys_given()
    for rows in [(0,), (31,), (62,), (62, 31), (31, 0)]:
        yield KEY_CHECK.damaged(rng, [row_not_zero(row) for row in rows], (64, 63, 1))
    for damages in [*frames_and_keys(KEY_CHECK), *every_damage(KEY_CHECK.order, list, at_once=2)]:
        yield KEY_CHECK.damaged(rng, damages)
    yield from flips(KEY_CHECK, rng, 3)


def begin_inputs(rng):
    """Also a begin after each sign-on, with the choices that open left."""
    yield from (played.begin for played in sign_ons())
    yield from (played.begin_again() for played in sign_ons())
    yield from (BEGIN.damaged(rng, damages) for damages in begin_damaged())
    yield from large_damaged(BEGIN, rng)
    yield from flips(BEGIN, rng, 5)


def answer_inputs(rng):
    yield from (played.answer for played in sign_ons())
    yield from (ANSWER.damaged(rng, damages) for damages in answer_damaged())
    yield from large_damaged(ANSWER, rng)
    yield from flips(ANSWER, rng, 6)


def open_inputs(rng):
    yield from (played.open for played in sign_ons())
    yield from (OPEN.damaged(rng, damages) for damages in open_damaged())
    yield from large_damaged(OPEN, rng)
    yield from flips(OPEN, rng, 6)


def give_up_inputs(rng):
    """Sign-ons given up at every stage, records of any bytes, choices of any length."""
    for played in sign_ons()[:20]:
        for given in (played.begin, played.answer, played.open, played.begin_again()):
            yield Given((), (given.buffers[0], given.buffers[-2]))
    for length in (*range(6), 39, 40, 41, 68, 100, 1000, 8191, 8192, 8193):
        yield Given((), (rng.randbytes(RECORD_SIZE), rng.randbytes(length)))
    for byte in (0, 1, 2, 3, 4, 255):
        yield Given((), (bytes([byte]) * RECORD_SIZE, bytes([byte]) * 12))


# SELF is not among them: no case can reach it, as the card's own check passes with every valid key, and KEY is told before.
KEYS_REFUSALS = frame_refusals(1) | frame_refusals(2) | frame_refusals(3) | {(KEY, SECRET)}
CARD_REFUSALS = KEYS_REFUSALS | {(STAGE, NONE), (SHAPE, CHOICES), (VALUE, CHOICES), (PERM, CHOICES), (ROOM, OUTPUT)}



def step_names(form, numbers=(), changed=("session", "output")):
    return Names(numbers, ("session", *frame_names(*form.kinds), "choices", "output"), ("bytes",), changed)


KEY_CHECK_NAMES = Names(buffers=frame_names(*KEY_CHECK.kinds))
BEGIN_NAMES = step_names(BEGIN, numbers=("rounds",))
OPEN_NAMES = step_names(OPEN, changed=("session", "choices", "output"))
GIVE_UP_NAMES = Names(buffers=("session", "choices"), after=("session", "choices"))

CARD_CALLS = [
    Call("key_check", KEY_CHECK_NAMES, KEY_CHECK.play, key_check_inputs, KEYS_REFUSALS),
    Call("begin", BEGIN_NAMES, BEGIN.play, begin_inputs, CARD_REFUSALS | {(SHAPE, NONE)}),
    Call("answer", step_names(ANSWER), ANSWER.play, answer_inputs, CARD_REFUSALS | frame_refusals(5)),
    Call("open", OPEN_NAMES, OPEN.play, open_inputs, CARD_REFUSALS | frame_refusals(7)),
    Call("give_up", GIVE_UP_NAMES, over_record(signon.give_up), give_up_inputs, set()),
]
