"""Inputs of the verdict program, by the model alone."""
from random import Random

from card_cases import Lent
from register_cases import honest, honest_with_bits
from signon import packed_size


def honest_input(seed, grade, n, m, rounds):
    """A grade and an honest sign-on; the same bytes for the same seed."""
    return bytes([grade]) + b"".join(honest(Lent(Random(seed), n, m, rounds)))


def honest_input_of_bit(seed, grade, n, m, rounds, bit):
    """The same, with one bit for every round."""
    unused = 8 * packed_size(rounds) - rounds
    packed = ((2**rounds - 1) * bit << unused).to_bytes(packed_size(rounds), "big")
    return bytes([grade]) + b"".join(honest_with_bits(Random(seed), packed, (n, m, rounds)))
