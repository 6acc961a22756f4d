#!/usr/bin/env python3
"""Says whether the sample is what the model says now, and whether its tests hold when they are played from the file alone.

    python3 tests/vectors/check.py

Exit status 1 where it is not, or where they do not.
"""
import json
import sys

from vectors import CALLS, SAMPLE, file_of, sample_cases  # and lets tests/model be imported
from making import Given
from signon import Refused

CALL_OF = {call.name: call for call in CALLS}


# --- The bytes ---


def first_difference(kept, wanted):
    """The number of the first line that differs, from 1."""
    lines = zip(kept.splitlines(), wanted.splitlines())
    alike = next((k for k, (old, new) in enumerate(lines) if old != new), min(kept.count(b"\n"), wanted.count(b"\n")))
    return alike + 1


def as_written(kept):
    wanted = file_of(sample_cases()).encode("ascii")
    if kept != wanted:
        print(f"{SAMPLE.name} is not what the model says, from line {first_difference(kept, wanted)} on; write.py makes it anew")
    return kept == wanted


# --- The tests, as any program would play them ---


def given_by(group, test):
    numbers = tuple(int(test["numbers"][name]) for name in group["numbers"])
    return Given(numbers, tuple(bytes.fromhex(test["buffers"][name]) for name in group["buffers"]))


def answer_of(group, test):
    if test["result"] == "refused":
        refusal = test["refusal"]
        return Refused(refusal["number"], refusal["buffer"], refusal["place"])
    return tuple(test["values"][name] for name in group["values"])


def after_of(group, test):
    """What has to be there afterwards: a buffer that the test is silent on is as it was given."""
    told = {**test["buffers"], **test["after"]}
    return tuple(bytes.fromhex(told[name]) for name in group["after"])


def holds(group, test):
    answer, after = CALL_OF[group["call"]].play(given_by(group, test))
    got = answer if isinstance(answer, Refused) else answer.values
    return (got, after) == (answer_of(group, test), after_of(group, test))


def failing(file):
    return [test["tcId"] for group in file["testGroups"] for test in group["tests"] if not holds(group, test)]


def main():
    kept = SAMPLE.read_bytes()
    if not as_written(kept):
        sys.exit(1)
    file = json.loads(kept)
    wrong = failing(file)
    if wrong:
        sys.exit(f"tests that do not hold: {wrong}")
    print(f"{SAMPLE.name} is what the model says: {file['numberOfTests']} tests, {len(kept)} bytes")


if __name__ == "__main__":
    main()
