"""What the cases of every call are made of: values, numbers around their limits, and damage in every combination."""
from collections.abc import Callable
from itertools import combinations
from random import Random
from typing import NamedTuple

from signon import P, PERMUTATIONS, RESIDUES, Outcome, kernel_vector, packed_size, public_of, rest_size, system_of

LARGEST = 2**64 - 1


class Given(NamedTuple):
    """What a call is given in a case."""

    numbers: tuple
    buffers: tuple


class Names(NamedTuple):
    """What a call's numbers and buffers, the values of its success and what it shows afterwards are called, each in order. What is shown
    afterwards under the name of a buffer is that buffer."""

    numbers: tuple = ()
    buffers: tuple = ()
    values: tuple = ()
    after: tuple = ()


class Call(NamedTuple):
    name: str
    names: Names
    play: Callable[[Given], Outcome]
    inputs: Callable[[Random], list]
    refusals: set
    """Every (number, buffer) that the call can give; the cases have to reach each of them and no other."""


# --- Values ---


def residues(rng, count):
    return bytes(rng.randrange(P) for _ in range(count))


def permutation(rng, n):
    places = list(range(n))
    rng.shuffle(places)
    return bytes(places)


def packed_bits(rng, rounds):
    unused = 8 * packed_size(rounds) - rounds
    return (rng.getrandbits(rounds) << unused).to_bytes(packed_size(rounds), "big")


def rest_of(rng, kind, first, second):
    """A well-formed rest of a body."""
    if kind in PERMUTATIONS:
        return b"".join(permutation(rng, first) for _ in range(max(second, 1)))
    if kind == 7:
        return packed_bits(rng, first)
    size = rest_size(kind, first, second)
    return residues(rng, size) if kind in RESIDUES else rng.randbytes(size)


def valid_key(rng, n, m):
    """The entries of a system, a public vector, and a permutation that is a valid key for it."""
    entries, pi = residues(rng, m * (n - m)), permutation(rng, n)
    x = kernel_vector(system_of(n, m, entries), residues(rng, n - m))
    return entries, public_of(pi, x), pi


class Highest(Random):
    """Draws residues that are all 250."""

    def randrange(self, limit):
        return limit - 1


class Lowest(Random):
    """Draws residues that are all 0."""

    def randrange(self, limit):
        return 0


def pair(numbers):
    """The numbers of a kind with 0 for a second one that it does not have."""
    return numbers if len(numbers) == 2 else (*numbers, 0)


# --- Damage ---


def absurd(numbers):
    """Numbers far out of limits, some of which look like good ones in fewer bits."""
    alike = [beyond + number for number in numbers for beyond in (256, 2**16, 2**32, 2**63)]
    return [*alike, 2**63, LARGEST]


def every_damage(damages, make, at_once=None):
    """What make gives for every set of damages, or of so many at once, so that each two that can be told stand against each other."""
    most = len(damages) if at_once is None else at_once
    for count in range(most + 1):
        for chosen in combinations(damages, count):
            yield make(chosen)


def flipped(rng, whole):
    """The bytes with one of them changed, at each place."""
    for j, byte in enumerate(whole):
        yield whole[:j] + bytes([byte ^ rng.randrange(1, 256)]) + whole[j + 1 :]
