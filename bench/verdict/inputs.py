#!/usr/bin/env python3
"""Writes honest sign-ons, as the verdict program reads them, into a folder, by the model in tests/model. Prints their paths.

    python3 bench/verdict/inputs.py FOLDER
"""
import sys
from pathlib import Path

sys.path.insert(0, str(Path(__file__).resolve().parents[2] / "tests" / "model"))

from program_input import honest_input, honest_input_of_bit

SIZES = [("keeper", 2, 64, 37, 31), ("inspector", 1, 32, 16, 20)]
"""A grade's name and number, n, m and N."""


def main():
    folder = Path(sys.argv[1])
    for name, *size in SIZES:
        inputs = {"": honest_input(name, *size), "-bits-0": honest_input_of_bit(name, *size, 0), "-bits-1": honest_input_of_bit(name, *size, 1)}
        for bits, sent in inputs.items():
            path = folder / (name + bits)
            path.write_bytes(sent)
            print(path)


main()
