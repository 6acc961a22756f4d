#!/usr/bin/env python3
"""Writes crates/sha256_vectors/stdout: the digests that the program sha256_vectors has to print, by Python's hashlib.

The digests that the standard's authors published for their examples are written out below, and hashlib is held to them.
"""
import hashlib
import os

LONGEST = 65535

# FIPS 180-4's two examples for SHA-256, and those of the additional vectors that NIST published for it that are short enough
EXAMPLES = [
    (b"abc", "ba7816bf8f01cfea414140de5dae2223b00361a396177a9cb410ff61f20015ad"),
    (b"abcdbcdecdefdefgefghfghighijhijkijkljklmklmnlmnomnopnopq", "248d6a61d20638b8e5c026930c3e6039a33ce45964ff2167f6ecedd419db06c1"),
    (b"\xc9\x8c\x8e\x55", "7abc22c0ae5af26ce93dbb94433a0e0b2e119d014f8e7f65bd56c61ccccd9504"),
    (b"\xbd", "68325720aabd7c82f30f554b313d0570c95accbb7dc4b5aae11204c08ffe732b"),
    (b"\x00" * 55, "02779466cdec163811d078815c633f21901413081449002f24aa3e80f0b88ef7"),
    (b"\x00" * 56, "d4817aa5497628e7c77e6b606107042bbba3130888c5f47a375e6179be789fbb"),
    (b"\x00" * 57, "65a16cb7861335d5ace3c60718b5052e44660726da4cd13bb745381b235a1785"),
    (b"\x00" * 64, "f5a5fd42d16a20302798ef6ed309979b43003d2320d9f0e8ea9831a92759fb4b"),
    (b"\x00" * 1000, "541b3e9daa09b20bf85fa273e5cbd3e80185aa4ec298e765db87742b70138a53"),
    (b"\x41" * 1000, "c2e686823489ced2017f6059b8b239318b6364f6dcd835d0a519105a1eadd6e4"),
    (b"\x55" * 1005, "f4d62ddec0f3dd90ea1380fa16a5ff8dc4c54b21740650f24afc4120903552b0"),
]


def mixed(n):
    """The message of n bytes that the program makes: byte i is (31 i + n) modulo 251."""
    return bytes((31 * i + n) % 251 for i in range(n))


def lengths():
    yield from range(301)
    for n in range(320, LONGEST + 1, 64):
        yield from (n - 1, n, n + 1)
    yield from (LONGEST, LONGEST + 1)


def line(message):
    if len(message) > LONGEST:
        return f"{len(message)} refused 5 4 0 {'0' * 64} same"
    return f"{len(message)} fine {hashlib.sha256(message).hexdigest()} same"


def main():
    for message, published in EXAMPLES:
        assert hashlib.sha256(message).hexdigest() == published, message
    lines = [line(message) for message, _ in EXAMPLES] + [line(mixed(n)) for n in lengths()]
    path = os.path.join(os.path.dirname(os.path.abspath(__file__)), "..", "crates", "sha256_vectors", "stdout")
    with open(path, "w") as out:
        out.write("\n".join(lines) + "\n")


main()
