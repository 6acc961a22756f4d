#!/usr/bin/env python3
"""Writes test vectors in JSON, the same bytes at every run.

    python3 tests/vectors/write.py              writes tests/vectors/sample.json
    python3 tests/vectors/write.py --all FILE   writes every case to FILE
"""
from argparse import ArgumentParser
from pathlib import Path

from vectors import SAMPLE, every_case, file_of, sample_cases


def write(path, indexed):
    content = file_of(indexed).encode("ascii")
    path.write_bytes(content)
    print(f"{len(indexed)} tests; {path.name} has {len(content)} bytes")


def main():
    parser = ArgumentParser(description="Writes test vectors in JSON: the sample, or every case.")
    parser.add_argument("--all", type=Path, metavar="FILE", help="where to write every case")
    asked = parser.parse_args()
    if asked.all:
        write(asked.all, every_case())
    else:
        write(SAMPLE, sample_cases())


if __name__ == "__main__":
    main()
