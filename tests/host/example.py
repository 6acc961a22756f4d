"""Builds and runs the example in C."""
from host import C_BINDING, Failed, link, run

EXPECTED = """\
card      commitments    1989 bytes
register  challenges       36 bytes
card      first answers  1990 bytes
register  bits              9 bytes
card      openings       1990 bytes
accepted 31
"""
"""The sizes are document 01's at n = 64 and N = 31."""


def check():
    printed = run([link("example", C_BINDING / "example.c")])
    if printed != EXPECTED:
        raise Failed(f"the example prints\n{printed}")
    return "a sign-on of 31 rounds over random bytes, accepted"
