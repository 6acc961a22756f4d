#!/usr/bin/env python3
"""Writes the cases of the program `replay` and what it has to print, both from the model alone.

    python3 tests/model/cases.py                writes crates/replay/stdin and stdout, and says what the cases reach
    python3 tests/model/cases.py --show INDEX   prints one case in words

A case is a count of four bytes and then that many: the call's number, how many numbers it is given, each number in eight bytes, and up to
the end each buffer as four bytes of length and its bytes. All are big-endian. A buffer lent for writing is a buffer like the others, and so
is a session record, of 68 bytes: stage, n, m, N, challenges.

A line is the case's index, the call's number, `done` and the success values or `refused` and number, buffer and place, and then every
buffer that was lent for writing or handed back, as it is after the call: `=` and its bytes in hex up to 40 of them, `~` and its Adler-32
above. There is one space between words.

A call is one function that makes a Call, as in frame_cases.py. Its cases hang on its name alone, so a new call changes no other's.
"""
import sys
import zlib
from collections import Counter
from pathlib import Path
from random import Random
from typing import NamedTuple

from card_cases import CARD_CALLS
from draw_cases import DRAW_CALLS
from frame_cases import FRAME_CALLS
from hash_cases import HASH_CALLS
from making import Given
from register_cases import REGISTER_CALLS
from signon import Refused
from stand_in_cases import STAND_IN_CALLS

REPLAY = Path(__file__).resolve().parents[2] / "crates" / "replay"
SHOWN_WHOLE = 40

CALLS = [*FRAME_CALLS, *HASH_CALLS, *STAND_IN_CALLS, *DRAW_CALLS, *CARD_CALLS, *REGISTER_CALLS]
"""The number of a call in a case is its place here, from 1."""


class Case(NamedTuple):
    number: int
    given: Given

    @property
    def call(self):
        return CALLS[self.number - 1]

    def outcome(self):
        return self.call.play(self.given)


def all_cases():
    return [Case(number, given) for number, call in enumerate(CALLS, 1) for given in call.inputs(Random(call.name))]


def encoded(case):
    numbers, buffers = case.given
    body = bytes([case.number, len(numbers)]) + b"".join(number.to_bytes(8, "big") for number in numbers)
    body += b"".join(len(buffer).to_bytes(4, "big") + buffer for buffer in buffers)
    return len(body).to_bytes(4, "big") + body


def shown(buffer):
    return "=" + buffer.hex() if len(buffer) <= SHOWN_WHOLE else "~%08x" % zlib.adler32(buffer)


def line(index, case):
    answer, after = case.outcome()
    told = ["refused", *answer] if isinstance(answer, Refused) else ["done", *answer.values]
    return " ".join(str(word) for word in [index, case.number, *told, *map(shown, after)]) + "\n"


# --- What the cases reach ---


def reached(case):
    """The refusal's number and buffer, or None for a success."""
    answer = case.outcome().answer
    return (answer.number, answer.buffer) if isinstance(answer, Refused) else None


def coverage(cases):
    """Prints what each call's cases reach, and answers whether that is what the call can give."""
    whole = True
    for number, call in enumerate(CALLS, 1):
        met = Counter(reached(case) for case in cases if case.number == number)
        told = ", ".join(f"{refusal[0]}/{refusal[1]} {met[refusal]}" for refusal in sorted(filter(None, met)))
        print(f"{call.name}: {met.total()} cases, {met[None]} done; refused (number/buffer times): {told}")
        lacking, stray = call.refusals - set(met), set(met) - call.refusals - {None}
        if lacking or stray or not met[None]:
            whole = False
            print(f"  NOT REACHED: {sorted(lacking)}; NOT THE CALL'S: {sorted(stray)}; done: {met[None]}")
    return whole


def show(index):
    case = all_cases()[index]
    print(case.call.name, *case.given.numbers)
    for buffer in case.given.buffers:
        print(f"  {len(buffer)} bytes: {buffer.hex(' ')}")
    print(line(index, case), end="")


def main():
    if sys.argv[1:2] == ["--show"]:
        show(int(sys.argv[2]))
        return
    cases = all_cases()
    sent = b"".join(map(encoded, cases))
    printed = "".join(line(index, case) for index, case in enumerate(cases))
    whole = coverage(cases)
    (REPLAY / "stdin").write_bytes(sent)
    (REPLAY / "stdout").write_text(printed)
    print(f"{len(cases)} cases; stdin has {len(sent)} bytes, stdout {len(printed)}")
    sys.exit(0 if whole else "the cases do not reach what they should")


if __name__ == "__main__":
    main()
