#!/usr/bin/env python3
"""Checks the model against what document 01 works out by hand, and against itself: honest sign-ons are accepted, damaged ones are not.

    python3 tests/model/check.py
"""
import random
import sys

from signon import *

failed = 0


def expect(what, got, wanted):
    global failed
    if got != wanted:
        failed += 1
        print(f"{what}: {got}, not {wanted}")


# --- "The small system, by hand" ---

A = system_of(3, 1, bytes([1, 2]))
V = bytes([3, 240, 5])
PI = bytes([2, 0, 1])
R = bytes([10, 20, 30])
SIGMA = bytes([1, 0, 2])
SYSTEM_FRAME = bytes.fromhex("0006010103010102")
PUBLIC_FRAME = bytes.fromhex("000601020303F005")
SECRET_FRAME = frame_of(3, [3], PI)


def answered(challenge):
    return first_answer_of(V, PI, Choice(R, SIGMA), challenge)


def returned_to(challenge):
    """A_σ W."""
    return times(columns_permuted(A, SIGMA), answered(challenge))


def small_system():
    expect("case 1, V_π", permuted(V, PI), bytes([5, 3, 240]))
    expect("case 1, A V_π", times(A, permuted(V, PI)), bytes([0]))
    expect("case 1, the key", key_check(SYSTEM_FRAME, PUBLIC_FRAME, SECRET_FRAME), Outcome(Done()))
    expect("case 2", times(A, R), bytes([80]))
    expect("case 3", permuted(R, SIGMA), bytes([20, 10, 30]))
    expect("case 4, πσ", product(PI, SIGMA), bytes([0, 2, 1]))
    expect("case 4, σπ", product(SIGMA, PI), bytes([2, 1, 0]))
    expect("case 5, W", answered(7), bytes([41, 45, 204]))
    expect("case 5, A_σ W", returned_to(7), bytes([80]))
    expect("case 6, W", answered(250), bytes([17, 5, 41]))
    expect("case 6, A_σ W", returned_to(250), bytes([80]))
    expect("case 7", answered(0), permuted(R, SIGMA))
    identity = bytes([0, 1, 2])
    expect("case 8, the sum", times(A, permuted(V, identity)), bytes([237]))
    expect("case 8", key_check(SYSTEM_FRAME, PUBLIC_FRAME, frame_of(3, [3], identity)), Outcome(Refused(KEY, SECRET, 0)))
    expect("case 9", draw_permutation(3, bytes([255, 4, 1]), bytes(3)), Outcome(Done((3,)), (bytes([0, 2, 1]),)))
    expect("the last byte not skipped", draw_permutation(3, bytes([254, 255]), bytes(3)), Outcome(Done((2,)), (bytes([0, 1, 2]),)))
    expect("case 10", draw_challenges(2, bytes([251, 250, 0]), bytes(7)), Outcome(Done((3,)), (frame_of(5, [2], bytes([250, 0])),)))
    expect("case 10, run out", draw_challenges(2, bytes([251, 250]), bytes(7)), Outcome(Refused(DRAW, RANDOM, 2), (bytes(7),)))
    expect("case 11", draw_bits(3, b"\xbf", bytes(6)), Outcome(Done((1,)), (frame_of(7, [3], b"\xa0"),)))
    expect("case 11, the bits", [bit_at(b"\xa0", k) for k in range(3)], [1, 0, 1])
    expect("case 12, 250", read(5, frame_of(5, [1], b"\xfa")), Outcome(Done((1, 0, 5))))
    expect("case 12, 251", read(5, frame_of(5, [1], b"\xfb")), Outcome(Refused(VALUE, CHALLENGES, 5)))


# --- Refusals, worked out by hand: "Frames", "Refusal numbers" ---

FRAMES = [
    (1, "", Refused(SHORT, SYSTEM, 0)),
    (1, "0001 01", Refused(SHORT, SYSTEM, 0)),
    (1, "0003 0101", Refused(SHORT, SYSTEM, 0)),
    (1, "0000 0101", Refused(LONG, SYSTEM, 0)),
    (1, "0001 0101", Refused(LONG, SYSTEM, 0)),
    (1, "0002 0202", Refused(VERSION, SYSTEM, 2)),
    (1, "0002 0102", Refused(KIND, SYSTEM, 3)),
    (1, "0002 0101", Refused(SHAPE, SYSTEM, 4)),
    (1, "0003 0101 03", Refused(SHAPE, SYSTEM, 4)),
    (1, "0004 0101 0100", Refused(SHAPE, SYSTEM, 4)),
    (1, "0004 0101 0303", Refused(SHAPE, SYSTEM, 4)),
    (1, "0005 0101 0201 fa", Done((2, 1, 6))),
    (1, "0006 0101 0301 0102", Done((3, 1, 6))),
    (1, "0006 0101 0302 01fb", Refused(VALUE, SYSTEM, 7)),
    (1, "0007 0101 0301 fbfb00", Refused(SHAPE, SYSTEM, 4)),
    (2, "0006 0102 03 000000", Done((3, 0, 5))),
    (2, "0006 0102 03 fafbfc", Refused(VALUE, PUBLIC, 6)),
    (2, "0043 0102 40" + 64 * "fa", Done((64, 0, 5))),
    (2, "0044 0102 41" + 65 * "00", Refused(SHAPE, PUBLIC, 4)),
    (3, "0006 0103 03 020001", Done((3, 0, 5))),
    (3, "0006 0103 03 020002", Refused(PERM, SECRET, 5)),
    (3, "0006 0103 03 0200ff", Refused(PERM, SECRET, 5)),
    (4, "0043 0104 01" + 64 * "ff", Done((1, 0, 5))),
    (4, "0003 0104 00", Refused(SHAPE, COMMITMENTS, 4)),
    (6, "0008 0106 0202 0001fafb", Refused(VALUE, ANSWERS, 9)),
    (7, "0004 0107 03 e0", Done((3, 0, 5))),
    (7, "0004 0107 03 f0", Refused(SHAPE, BITS, 4)),
    (7, "0005 0107 09 ff80", Done((9, 0, 5))),
    (8, "0008 0108 0202 01000001", Done((2, 2, 6))),
    (8, "0008 0108 0202 01000000", Refused(PERM, OPENINGS, 8)),
]

PLAINS = [
    (1, 3, 1, "0102", Refused(ROOM, OUTPUT, 8)),
    (1, 3, 3, "", Refused(SHAPE, NONE, 0)),
    (1, 2**64 - 1, 1, "", Refused(SHAPE, NONE, 0)),
    (2, 3, 0, "03f005", Refused(ROOM, OUTPUT, 8)),
    (2, 3, 0, "03f0", Refused(SHAPE, PUBLIC, 0)),
    (2, 3, 0, "03fb05", Refused(VALUE, PUBLIC, 1)),
    (3, 3, 0, "020001", Refused(ROOM, OUTPUT, 8)),
    (4, 1, 0, 64 * "00", Refused(ROOM, OUTPUT, 69)),
    (4, 65, 0, 65 * 64 * "00", Refused(SHAPE, NONE, 0)),
    (5, 2, 0, "fa00", Refused(ROOM, OUTPUT, 7)),
    (6, 2, 2, "00010203", Refused(ROOM, OUTPUT, 10)),
    (7, 9, 0, "ff80", Refused(ROOM, OUTPUT, 7)),
    (7, 9, 0, "ff81", Refused(SHAPE, BITS, 0)),
    (8, 2, 2, "00010100", Refused(ROOM, OUTPUT, 10)),
    (8, 2, 2, "00010101", Refused(PERM, OPENINGS, 2)),
]


def frames():
    for kind, spelt, told in FRAMES:
        expect(f"reading {spelt} as kind {kind}", read(kind, bytes.fromhex(spelt)).answer, told)
    for kind, first, second, plain, told in PLAINS:
        outcome = write(kind, first, second, bytes.fromhex(plain), b"abcde")
        expect(f"writing {plain} as kind {kind}", outcome, Outcome(told, (b"abcde",)))
    frame = bytes.fromhex("0006010203 03F005")
    expect("writing with room left over", write(2, 3, 0, V, bytes(10)), Outcome(Done((8,)), (frame + bytes(2),)))
    openings = frame_of(8, [3, 2], PI + SIGMA)
    expect("the opening of round 1", opening(openings, 1), SIGMA)
    expect("the opening of round 2", check_opening(openings, 2).answer, Refused(SHAPE, NONE, 0))
    expect("nothing for round 2", opening(openings, 2), b"")


KEYS = SYSTEM_FRAME, PUBLIC_FRAME, SECRET_FRAME
RECORD = Session(COMMITTED, 3, 1, 1, bytes(64))
C, B = frame_of(5, [1], b"\7"), frame_of(7, [1], b"\x80")


def rooms():
    """The place of ROOM is the bytes needed, and it comes before DRAW and SELF."""
    room = [
        (3, draw_permutation(3, b"", b"")),
        (7, draw_challenges(2, b"", b"")),
        (6, draw_bits(8, b"", b"")),
        (7, draw_bits(9, b"", b"")),
        (12, draw_choices(3, 2, b"", b"")),
        (16, make_key(SYSTEM_FRAME, b"", b"")),
        (69, begin(FRESH, 1, *KEYS, R + SIGMA, b"")),
        (9, answer(RECORD, *KEYS, C, R + SIGMA, b"")),
        (9, open_rounds(RECORD._replace(stage=ANSWERED), *KEYS, B, R + SIGMA, b"")),
        (38, stand_in(7, 1, SYSTEM_FRAME, PUBLIC_FRAME, R + SIGMA, b"")),
    ]
    for need, outcome in room:
        expect(f"room for {need}", outcome.answer, Refused(ROOM, OUTPUT, need))
    expect("n of 1", draw_permutation(1, b"", b"").answer, Refused(SHAPE, NONE, 0))
    expect("n of 65", draw_permutation(65, b"", b"").answer, Refused(SHAPE, NONE, 0))
    expect("N of 65", draw_bits(65, b"", b"").answer, Refused(SHAPE, NONE, 0))
    expect("a challenge of 251", stand_in(251, 0, b"", b"", b"", b"").answer, Refused(SHAPE, NONE, 0))
    expect("a bit of 2", stand_in(0, 2, b"", b"", b"", b"").answer, Refused(SHAPE, NONE, 0))


def card_order():
    """Each row is wrong in what it tells and in what would be told next."""
    stage, unfit = Refused(STAGE, NONE, 0), R + bytes(3)
    two = RECORD._replace(rounds=2)
    rows = [
        (stage, begin(RECORD, 0, *KEYS, b"", b"")),
        (stage, begin(FRESH._replace(stage=4), 0, *KEYS, b"", b"")),
        (Refused(SHAPE, NONE, 0), begin(FRESH, 0, b"", b"", b"", b"", b"")),
        (Refused(SHORT, SYSTEM, 0), begin(FRESH, 1, b"", b"", b"", b"", b"")),
        (Refused(SHAPE, PUBLIC, 4), begin(FRESH, 1, SYSTEM_FRAME, frame_of(2, [2], b"\0\0"), b"", b"", b"")),
        (Refused(SHAPE, SECRET, 4), begin(FRESH, 1, SYSTEM_FRAME, PUBLIC_FRAME, frame_of(3, [2], b"\1\0"), b"", b"")),
        (Refused(SHAPE, CHOICES, 0), begin(FRESH, 1, *KEYS, b"\xff", b"")),
        (Refused(PERM, CHOICES, 3), begin(FRESH, 2, *KEYS, unfit + b"\xff" + unfit[1:], b"")),
        (Refused(VALUE, CHOICES, 6), begin(FRESH, 2, *KEYS, R + SIGMA + b"\xff" + unfit[1:], b"")),
        (Refused(KEY, SECRET, 0), begin(FRESH, 1, *KEYS[:2], frame_of(3, [3], bytes([0, 1, 2])), R + SIGMA, b"")),
        (stage, answer(FRESH, b"", b"", b"", b"", b"", b"")),
        (Refused(SHORT, SYSTEM, 0), answer(RECORD._replace(n=4), b"", b"", b"", b"", b"", b"")),
        (stage, answer(RECORD._replace(n=4), *KEYS, b"", b"", b"")),
        (stage, answer(RECORD._replace(m=2), *KEYS, b"", b"", b"")),
        (stage, answer(RECORD._replace(rounds=0), *KEYS, b"", b"", b"")),
        (stage, answer(RECORD._replace(rounds=65), *KEYS, b"", b"", b"")),
        (Refused(SHAPE, CHALLENGES, 4), answer(two, *KEYS, C, b"", b"")),
        (stage, open_rounds(RECORD, *KEYS, B, R + SIGMA, b"")),
        (stage, open_rounds(RECORD._replace(stage=ANSWERED, challenges=b"\xfb" + bytes(63)), *KEYS, b"", b"", b"")),
        (Refused(SHAPE, BITS, 4), open_rounds(two._replace(stage=ANSWERED, challenges=bytes(2) + 62 * b"\xff"), *KEYS, B, b"", b"")),
    ]
    for told, outcome in rows:
        expect("the card's order", outcome.answer, told)
    expect("a refused begin keeps", rows[0][1].after, (RECORD, b""))
    begun, _ = begin(FRESH._replace(challenges=64 * b"\1"), 1, *KEYS, R + SIGMA, bytes(69)).after
    expect("begun", begun, RECORD)
    answered_record, _ = answer(RECORD._replace(challenges=64 * b"\2"), *KEYS, C, R + SIGMA, bytes(9)).after
    expect("answered", answered_record, Session(ANSWERED, 3, 1, 1, b"\7" + 63 * b"\2"))


# --- The verdict program ---

SAMPLE = bytes.fromhex(
    "01 0006010103010102 000601020303F005 0043010401" + 64 * "00" + "000401050107 000701060301292DCC 000401070100 000701080301010002"
)


def program():
    expect("the sample input", verdict_line(SAMPLE), "refused 12 0 0\n")
    expect("no input", verdict_line(b""), "refused 1 1 0\n")
    expect("a byte left over", verdict_line(SAMPLE + b"\0"), "refused 2 9 0\n")
    expect("a byte missing", verdict_line(SAMPLE[:-1]), "refused 1 9 0\n")
    expect("a count of 1", verdict_line(bytes.fromhex("01 0001 01")), "refused 1 1 0\n")
    expect("input past the limit", verdict_line(SAMPLE + bytes(100_000)), "refused 2 9 0\n")


# --- Whole sign-ons ---


class Run(NamedTuple):
    """What a whole sign-on passed between card and register."""

    system: bytes
    public: bytes
    secret: bytes
    messages: list
    session: Session
    choices: bytes


def succeed(outcome):
    """What an outcome left, once it is known not to be a refusal."""
    expect("refused", isinstance(outcome.answer, Refused), False)
    return outcome.after


def honest_run(n, m, rounds, rng):
    def lent():
        return rng.randbytes(20_000)

    system = frame_of(1, [n, m], bytes(rng.randrange(P) for _ in range(m * (n - m))))
    (keys,) = succeed(make_key(system, lent(), bytes(2 * (n + 5))))
    public, secret = keys[: n + 5], keys[n + 5 :]
    (choices,) = succeed(draw_choices(n, rounds, lent(), bytes(2 * n * rounds)))
    (challenges,) = succeed(draw_challenges(rounds, lent(), bytes(5 + rounds)))
    (bits,) = succeed(draw_bits(rounds, lent(), bytes(5 + packed_size(rounds))))
    session, commitments = succeed(begin(FRESH, rounds, system, public, secret, choices, bytes(5 + 64 * rounds)))
    session, answers = succeed(answer(session, system, public, secret, challenges, choices, bytes(6 + n * rounds)))
    session, choices, openings = succeed(open_rounds(session, system, public, secret, bits, choices, bytes(6 + n * rounds)))
    return Run(system, public, secret, [commitments, challenges, answers, bits, openings], session, choices)


def sign_on(n, m, rounds, rng):
    what = f"n = {n}, m = {m}, N = {rounds}"
    run = honest_run(n, m, rounds, rng)
    expect(what + ", key", key_check(run.system, run.public, run.secret), Outcome(Done()))
    expect(what + ", stage", run.session.stage, CLOSED)
    expect(what + ", choices", run.choices, bytes(2 * n * rounds))
    for grade, least in LEAST_ROUNDS.items():
        wanted = Done((rounds,)) if rounds >= least else Refused(WEAK, NONE, 0)
        expect(f"{what}, grade {grade}", verdict(grade, run.system, run.public, *run.messages).answer, wanted)
    sent = bytes([1]) + run.system + run.public + b"".join(run.messages)
    if rounds >= LEAST_ROUNDS[1]:
        expect(what + ", program", verdict_line(sent), f"accepted {rounds}\n")
        spoilt_round(what, run, rounds - 1)
    expect(what + ", begun again", begin(run.session, rounds, run.system, run.public, run.secret, run.choices, b"").answer, Refused(PERM, CHOICES, n))


def spoilt_round(what, run, k):
    """A commitment changed in the half that round k opens is told, one in the other half is not."""
    bit = bit_at(run.messages[3][start_of(7) :], k)
    for half in (0, 1):
        spoilt = bytearray(run.messages[0])
        spoilt[start_of(4) + 2 * DIGEST * k + DIGEST * half] ^= 1
        told = verdict(1, run.system, run.public, bytes(spoilt), *run.messages[1:]).answer
        wanted = Refused(SECOND if bit else FIRST, OPENINGS, k) if half == bit else Done((k + 1,))
        expect(f"{what}, round {k} spoilt in C{half}", told, wanted)


def stand_in_round(n, m, bit, rng):
    """A round of the stand-in passes."""
    run = honest_run(n, m, 1, rng)
    challenge = rng.randrange(P)
    (choice,) = succeed(draw_choices(n, 1, rng.randbytes(1000), bytes(2 * n)))
    (shown,) = succeed(stand_in(challenge, bit, run.system, run.public, choice, bytes(DIGEST + 2 * n)))
    commitment, first_answer, permutation = shown[:DIGEST], shown[DIGEST : DIGEST + n], shown[DIGEST + n :]
    commitments = bytes(DIGEST) + commitment if bit else commitment + bytes(DIGEST)
    system, public = read_public_data(run.system, run.public)
    passed = passes(system, public, commitments, challenge, bit, first_answer, permutation)
    expect(f"stand-in, n = {n}, m = {m}, bit {bit}", passed, True)


def main():
    small_system()
    frames()
    rooms()
    card_order()
    program()
    rng = random.Random("whole sign-ons")
    for n, m, rounds in [(2, 1, 1), (2, 1, 64), (3, 1, 20), (5, 4, 31), (16, 7, 19), (32, 16, 30), (63, 62, 20), (64, 1, 33), (64, 37, 64)]:
        sign_on(n, m, rounds, rng)
        for bit in (0, 1):
            stand_in_round(n, m, bit, rng)
    expect("given up", give_up(Session(2, 3, 1, 1, bytes(range(64))), b"abc"), Outcome(Done(), (FRESH, bytes(3))))
    expect("hash", hash_message(b"abc").after[0].hex()[:8], "ba7816bf")
    expect("the longest message", hash_message(bytes(65_535)).answer, Done())
    expect("a message too long", hash_message(bytes(65_536)), Outcome(Refused(SHAPE, CHOICES, 0), (bytes(32),)))
    print("the model does not hold" if failed else "the model holds")
    sys.exit(1 if failed else 0)


if __name__ == "__main__":
    main()
