"""The cases of the drawings: permutation, challenges, bits, choices, key making."""
from collections.abc import Callable
from typing import NamedTuple

import signon
from frame_cases import FRAME_DAMAGES, damaged_frame, frame_names, frame_refusals
from making import Call, Given, Names, absurd, every_damage, rest_of
from signon import DRAW, NONE, OUTPUT, RANDOM, ROOM, SHAPE, Done, frame_of, packed_size

PLENTY = 20_000


class Drawing(NamedTuple):
    """A drawing, and the room that it needs for what it is given before the random bytes."""

    draw: Callable
    need: Callable


def sources(rng, length):
    """Random bytes of several tempers: even, mostly high, all alike."""
    yield rng.randbytes(length)
    yield bytes(rng.randrange(236, 256) for _ in range(length))
    for byte in (0, 127, 250, 251, 255):
        yield bytes([byte]) * length


def used_of(drawing, before, random):
    """How many of the bytes a drawing takes, all where they do not suffice."""
    answer = drawing.draw(*before, random, bytes(PLENTY)).answer
    return answer.values[0] if isinstance(answer, Done) else len(random)


def lent(rng, before, random, room):
    numbers = tuple(x for x in before if isinstance(x, int))
    frames = tuple(x for x in before if isinstance(x, bytes))
    return Given(numbers, (*frames, random, rng.randbytes(room)))


def just_enough(rng, drawing, before):
    random = rng.randbytes(PLENTY)
    return lent(rng, before, random[: used_of(drawing, before, random)], drawing.need(*before) + rng.choice((0, 0, 1, 9)))


def around_enough(rng, drawing, before):
    """Bytes and room around what is taken."""
    need = drawing.need(*before)
    for random in sources(rng, 40):
        used = used_of(drawing, before, random)
        for length in (0, used - 1, used, used + 4):
            for room in (need - 1, need, need + 3):
                yield lent(rng, before, random[:length], room)


def numbers_around(rng, small):
    """Each number at and around its limits and far beyond, with room and without."""
    for place in range(len(small)):
        for number in (0, 1, 2, 63, 64, 65, 66, 255, *absurd(small)):
            for room in (0, 200):
                yield lent(rng, (*small[:place], number, *small[place + 1 :]), rng.randbytes(100), room)


def drawing_names(numbers, frames):
    return Names(numbers, (*frames, "random", "output"), ("used",), ("output",))


def drawing_by_numbers(name, numbers, draw, sizes, small, need):
    drawing = Drawing(draw, need)

    def inputs(rng):
        enough = [just_enough(rng, drawing, size) for size in sizes]
        return [*enough, *around_enough(rng, drawing, small), *numbers_around(rng, small)]

    refusals = {(SHAPE, NONE), (ROOM, OUTPUT), (DRAW, RANDOM)}
    return Call(name, drawing_names(numbers, ()), lambda given: draw(*given.numbers, *given.buffers), inputs, refusals)


def permutation_call():
    sizes = [(n,) for n in range(2, 65)]
    return drawing_by_numbers("draw_permutation", ("n",), signon.draw_permutation, sizes, (6,), lambda n: n)


def challenges_call():
    sizes = [(rounds,) for rounds in range(1, 65)]
    return drawing_by_numbers("draw_challenges", ("rounds",), signon.draw_challenges, sizes, (4,), lambda rounds: 5 + rounds)


def bits_call():
    sizes = [(rounds,) for rounds in range(1, 65)]
    return drawing_by_numbers("draw_bits", ("rounds",), signon.draw_bits, sizes, (11,), lambda rounds: 5 + packed_size(rounds))


def choices_call():
    sizes = [(n, 1) for n in range(2, 65, 3)] + [(2, rounds) for rounds in range(2, 65, 3)] + [(64, 64)]
    return drawing_by_numbers("draw_choices", ("n", "rounds"), signon.draw_choices, sizes, (3, 2), lambda n, rounds: 2 * n * rounds)


def key_call():
    drawing = Drawing(signon.make_key, lambda frame: 2 * (frame[4] + 5))

    def system(rng, n, m):
        return frame_of(1, (n, m), rest_of(rng, 1, n, m))

    def inputs(rng):
        for n in range(2, 65, 2):
            for m in sorted({1, n // 2 if n < 20 else 2, n - 1}):
                yield just_enough(rng, drawing, (system(rng, n, m),))
        yield from around_enough(rng, drawing, (system(rng, 4, 2),))
        for damaged in every_damage(FRAME_DAMAGES, lambda damages: damaged_frame(rng, 1, damages), at_once=2):
            yield lent(rng, (damaged,), rng.randbytes(rng.choice((0, 50))), rng.choice((0, 50)))

    refusals = frame_refusals(1) | {(ROOM, OUTPUT), (DRAW, RANDOM)}
    return Call("make_key", drawing_names((), frame_names(1)), lambda given: signon.make_key(*given.buffers), inputs, refusals)


DRAW_CALLS = [permutation_call(), challenges_call(), bits_call(), choices_call(), key_call()]
