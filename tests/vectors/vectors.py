"""The cases of tests/model as test vectors in JSON. README.md beside this file says what each field means."""
import json
import sys
from pathlib import Path
from textwrap import indent

HERE = Path(__file__).resolve().parent
sys.path.insert(0, str(HERE.parent / "model"))

import signon
from cases import CALLS, all_cases, encoded, reached
from signon import Refused

SAMPLE = HERE / "sample.json"

ALGORITHM = "Enborzaki tablet sign-on"
SCHEME = "permuted kernel, five passes, N rounds side by side, modulo 251, over SHA-256"
NOTES = [
    "Made by tests/vectors/write.py from the model in tests/model; tests/vectors/README.md says what each field means.",
    "Buffers are hex. Numbers that a call is given are decimal strings, as they go up to 2^64 - 1.",
    "A buffer that is not under 'after' is as it was given.",
]

REFUSALS = "SHORT LONG VERSION KIND SHAPE VALUE PERM KEY ROOM DRAW STAGE WEAK FIRST SECOND SELF".split()
REFUSAL_NAMES = {getattr(signon, name): name for name in REFUSALS}


# --- One test ---


def named(names, things):
    return dict(zip(names, things, strict=True))


def told(names, answer):
    """The fields that tell the answer."""
    if isinstance(answer, Refused):
        number, buffer, place = answer
        return {"result": "refused", "refusal": {"number": number, "name": REFUSAL_NAMES[number], "buffer": buffer, "place": place}}
    return {"result": "done", "values": named(names.values, answer.values)}


def vector(index, case):
    """The test of a case; its id is the case's index, in the sample too."""
    names, (numbers, buffers) = case.call.names, case.given
    answer, after = case.outcome()
    lent = named(names.buffers, buffers)
    changed = {name: left for name, left in named(names.after, after).items() if left != lent.get(name)}
    return {
        "tcId": index,
        "numbers": named(names.numbers, map(str, numbers)),
        "buffers": {name: buffer.hex() for name, buffer in lent.items()},
        **told(names, answer),
        "after": {name: left.hex() for name, left in changed.items()},
    }


# --- A file: a group for each call, a line for each test ---


def listed(parts):
    """A list of parts that are JSON already, each on lines of its own."""
    return "[\n" + indent(",\n".join(parts), " ") + "\n]"


def fields(**parts):
    """An object of parts that are JSON already, each on lines of its own."""
    return "{\n" + indent(",\n".join(f'"{name}": {part}' for name, part in parts.items()), " ") + "\n}"


def group(call, tests):
    names = {part: json.dumps(names) for part, names in call.names._asdict().items()}
    return fields(call=json.dumps(call.name), **names, tests=listed(map(json.dumps, tests)))


def groups(indexed):
    for call in CALLS:
        yield group(call, [vector(index, case) for index, case in indexed if case.call is call])


def file_of(indexed):
    """The text of the file of some cases, each with its index."""
    return fields(
        algorithm=json.dumps(ALGORITHM),
        scheme=json.dumps(SCHEME),
        notes=listed(map(json.dumps, NOTES)),
        numberOfTests=json.dumps(len(indexed)),
        testGroups=listed(groups(indexed)),
    ) + "\n"


# --- What is in a file ---

SMALL = 2_000
"""The bytes of a case that is small, as replay is given it."""
SUCCESSES = 12
REFUSED_ALIKE = 2


def every_case():
    return list(enumerate(all_cases()))


def size(indexed_case):
    return len(encoded(indexed_case[1]))


def spread(things, count):
    """So many of the things, the first and the last among them, as evenly as can be; all where there are no more."""
    if len(things) <= count:
        return things
    return [things[k * (len(things) - 1) // (count - 1)] for k in range(count)]


def chosen(alike):
    """Of one call's cases that are all done, or all refused by one number and buffer: some of the small ones, and else the smallest."""
    by_size = sorted(alike, key=size)
    small = [indexed for indexed in by_size if size(indexed) <= SMALL]
    done = reached(alike[0][1]) is None
    return spread(small or by_size[:1], SUCCESSES if done else REFUSED_ALIKE)


def sample_cases():
    """Of every call some successes, and of every number and buffer with which it refuses some refusals."""
    kinds = {}
    for index, case in every_case():
        kinds.setdefault((case.number, reached(case)), []).append((index, case))
    return sorted((indexed for alike in kinds.values() for indexed in chosen(alike)), key=lambda indexed: indexed[0])
