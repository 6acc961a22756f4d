#!/usr/bin/env python3
"""Lists every branch and every index of the calls over secrets that hangs on one, on well-formed input, as valgrind sees them.

    python3 tests/secret_flow/run.py

Needs rt, gcc, objdump and valgrind (on Debian 12 `apt-get install -y valgrind`). A line is a call, what was marked as secret, branch or index, the symbol of
the archive, the instruction's offset there and the instruction. docs/EVIDENCE.md says what each is in the source.
"""
import re
import subprocess
import sys
from functools import cache
from pathlib import Path
from xml.etree import ElementTree

ROOT = Path(__file__).resolve().parents[2]
BUILT = ROOT / "target" / "secret_flow"
PROGRAM = BUILT / "flow"
PLAIN = ROOT / "tests" / "plain"

SECRETS = ["pi", "R", "sigma", "pi+R+sigma+V"]
"""Each secret alone; then all of them and V: valgrind takes what is read at a secret index for as secret as the bytes that lie there, so that V_pi is
secret where V is. V itself is not: the test of its range is among the lines of the last, and is no finding."""
MARKED = {"begin": SECRETS, "answer": SECRETS, "open": SECRETS, "draw_choices": ["random"], "make_key": ["random"]}
"""Each call with what is marked, in turn."""
FOUND = {"UninitCondition": "branch", "UninitValue": "index"}


def build():
    archive = subprocess.run([ROOT / "bindings" / "archive"], check=True, stdout=subprocess.PIPE).stdout.decode().strip()
    BUILT.mkdir(parents=True, exist_ok=True)
    sources = [ROOT / "tests" / "secret_flow" / "flow.c", *PLAIN.glob("*.c")]
    flags = ["-std=gnu11", "-O2", "-Wall", "-Wextra", "-Werror", "-no-pie", f"-I{ROOT / 'bindings' / 'c'}", f"-I{PLAIN}"]
    subprocess.run(["gcc", *flags, "-o", PROGRAM, *sources, archive], check=True)


@cache
def instructions():
    """Address to symbol, its address and the instruction."""
    listed = subprocess.run(["objdump", "-d", "--no-show-raw-insn", PROGRAM], check=True, stdout=subprocess.PIPE).stdout.decode()
    found, symbol, start = {}, "", 0
    for line in listed.splitlines():
        if head := re.match(r"([0-9a-f]+) <(.*)>:$", line):
            start, symbol = int(head[1], 16), head[2]
        elif body := re.match(r" *([0-9a-f]+):\s+(.*?)\s*$", line):
            found[int(body[1], 16)] = (symbol, start, body[2])
    return found


def flows(call, marked):
    """What valgrind tells, once for each instruction."""
    told = BUILT / "told.xml"
    watch = ["valgrind", "-q", "--error-limit=no", "--xml=yes", f"--xml-file={told}"]
    ran = subprocess.run([*watch, PROGRAM, call, *marked.split("+")])
    if ran.returncode:
        sys.exit(f"{call}: refused by {ran.returncode}")
    for error in ElementTree.parse(told).iter("error"):
        yield int(error.find("stack/frame/ip").text, 16), FOUND[error.find("kind").text]


def main():
    build()
    for call, secrets in MARKED.items():
        for marked in secrets:
            for address, sort in sorted(set(flows(call, marked))):
                symbol, start, text = instructions()[address]
                print(f"{call:12} {marked:12} {sort:6} {symbol}+{address - start:#x}: {text}", flush=True)


if __name__ == "__main__":
    main()
