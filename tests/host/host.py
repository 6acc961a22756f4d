"""What the host tests share: where things lie, how they are run and built, and how a test fails."""
import os
import subprocess
from functools import cache
from pathlib import Path
from threading import Lock

ROOT = Path(__file__).resolve().parents[2]
HERE = ROOT / "tests" / "host"
C_BINDING = ROOT / "bindings" / "c"
HEADER = C_BINDING / "signon.h"
BUILT = ROOT / "target" / "host"

STRICT = ["-Wall", "-Wextra", "-Werror", "-pedantic"]
C11 = ["gcc", "-std=c11"]
"""The compiler of C programs."""


class Failed(Exception):
    """What differs, for a person to read."""


def run(command, folder=ROOT, sent=None, **environment):
    """What a command prints, errors among it; it fails where its exit status is not 0."""
    ran = subprocess.run(
        command, cwd=folder, input=sent, env={**os.environ, **environment}, stdout=subprocess.PIPE, stderr=subprocess.STDOUT
    )
    printed = ran.stdout.decode(errors="replace")
    if ran.returncode:
        raise Failed(f"{' '.join(map(str, command))}: exit status {ran.returncode}\n{printed}")
    return printed


@cache
def built():
    ran = subprocess.run([ROOT / "bindings" / "archive"], stdout=subprocess.PIPE, stderr=subprocess.PIPE)
    if ran.returncode:
        raise Failed(f"no archive\n{ran.stderr.decode(errors='replace')}")
    return Path(ran.stdout.decode().strip())


BUILDING = Lock()
"""One thing is proved and built at a time."""


def archive():
    """The path of the archive, which is built once, by the first test that asks for it."""
    with BUILDING:
        return built()


def program(name):
    """Where the program of a crate lies."""
    return ROOT / "crates" / name / "out" / name


def made(name):
    """The path of a program as rt ci has left it; where it is not there, it is proved and built now."""
    path = program(name)
    with BUILDING:
        if not path.is_file():
            run(["rt", "run"], path.parents[1], sent=b"")
    return path


def link(name, *sources, headers=()):
    """Compiles a C program over the archive, and gives back its path. `headers` are folders beside that of signon.h."""
    BUILT.mkdir(parents=True, exist_ok=True)
    program = BUILT / name
    run([*C11, "-O2", *STRICT, *(f"-I{folder}" for folder in (C_BINDING, *headers)), "-o", program, *sources, archive()])
    return program
