"""Holds the header to C, to C++, to document 01's numbers and to the archive's symbols, and the archive to the functions that it may call."""
import re

from host import C11, C_BINDING, HEADER, HERE, STRICT, Failed, archive, run

LANGUAGES = [C11, ["g++", "-x", "c++", "-std=c++11"], ["g++", "-x", "c++", "-std=c++17"]]

KINDS = ["system", "public_key", "secret_key", "commitments", "challenges", "first_answers", "bits", "openings"]
CALLS = {
    *(f"signon_{verb}_{kind}" for verb in ("read", "write") for kind in KINDS),
    *(f"signon_draw_{what}" for what in ("permutation", "challenges", "bits", "choices")),
    *("signon_begin", "signon_answer_challenges", "signon_open", "signon_give_up"),
    *("signon_check_key", "signon_make_key", "signon_verdict", "signon_stand_in", "signon_check_opening", "signon_hash"),
}
"""Every public call, by its name in C."""

ASKED = {"memcpy", "memset"}
"""The functions that the archive calls and its host has."""


def declared():
    """The functions that the header declares, comments left out."""
    text = re.sub(r"/\*.*?\*/", "", HEADER.read_text(), flags=re.DOTALL)
    return set(re.findall(r"^struct signon_answer (\w+)\(", text, flags=re.MULTILINE))


def exported():
    """The symbols that the archive shows to a linker, of whatever sort."""
    lines = run(["nm", "-g", "--defined-only", archive()]).splitlines()
    return {line.split()[-1] for line in lines if len(line.split()) == 3}


def asked():
    """The symbols that the archive leaves to a linker."""
    lines = run(["nm", "-u", archive()]).splitlines()
    return {line.split()[-1] for line in lines if line.split()[:1] == ["U"]}


def compare(what, names):
    if names != CALLS:
        raise Failed(f"{what}: missing {sorted(CALLS - names)}, not expected {sorted(names - CALLS)}")


def check():
    for compiler in LANGUAGES:
        run([*compiler, *STRICT, f"-I{C_BINDING}", "-fsyntax-only", HERE / "header.c"])
    compare("the header", declared())
    compare("the archive", exported())
    if asked() != ASKED:
        raise Failed(f"the archive calls {sorted(asked())}, and not {sorted(ASKED)}")
    return f"{len(CALLS)} functions, declared and exported, that call {sorted(ASKED)} alone; fit for C11, C++11 and C++17"
