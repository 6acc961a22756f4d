"""Has generated.c give calls, honest and damaged, to the archive and to plain C (tests/plain).

    python3 tests/host/generated.py [CALLS [SEED]]

does so for another number of calls and another seed, and prints how often each call was done, and refused by each number.
"""
import sys

from host import HERE, ROOT, Failed, link, run

PLAIN = ROOT / "tests" / "plain"
FUZZ = ROOT / "tests" / "fuzz"
SOURCES = [HERE / "generated.c", *(FUZZ / f"{part}.c" for part in ("recipes", "honest", "edits", "compare")), *sorted(PLAIN.glob("*.c"))]
CALLS = 50_000
SEED = 251


def generate(calls, seed):
    """What is printed for so many calls: a line for each call, and last one for all of them."""
    return run([link("generated", *SOURCES, headers=[PLAIN, FUZZ]), str(calls), str(seed)])


def check():
    together = generate(CALLS, SEED).splitlines()[-1]
    return f"{together.split(',')[0]}; each call done, and refused by every number that it has"


def main():
    given = sys.argv[1:3]
    calls, seed = given + [CALLS, SEED][len(given) :]
    try:
        print(generate(calls, seed), end="")
    except Failed as failed:
        sys.exit(str(failed))


if __name__ == "__main__":
    main()
