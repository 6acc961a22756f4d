#!/usr/bin/env python3
"""Runs every host test over one archive, as many at a time as there are processors, and prints a line for each as it ends.

    python3 tests/host/run.py [NAME ..]

NAME is header, verdict, desk, rust, example, sign_ons or generated; all of them where none is named. Needs rt, gcc, g++, nm and cargo. The archive is
built first (bindings/archive); the programs are those that rt ci has left, or are built too. Exit status 1 where a test fails.
"""
import os
import sys
from concurrent.futures import ThreadPoolExecutor

import desk
import example
import generated
import header
import rust
import sign_ons
import verdict_offsets
from host import Failed

TESTS = {
    "header": header.check,
    "verdict": verdict_offsets.check,
    "desk": desk.check,
    "rust": rust.check,
    "example": example.check,
    "sign_ons": sign_ons.check,
    "generated": generated.check,
}
"""Those over programs stand second and third: they go on while the first has the archive built."""


def passes(name):
    try:
        print(f"{name}: {TESTS[name]()}", flush=True)
        return True
    except Failed as failed:
        print(f"{name} FAILED: {failed}", flush=True)
        return False


def main():
    named = sys.argv[1:] or list(TESTS)
    with ThreadPoolExecutor(os.cpu_count()) as pool:
        results = list(pool.map(passes, named))
    sys.exit(0 if all(results) else 1)


if __name__ == "__main__":
    main()
