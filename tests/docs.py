#!/usr/bin/env python3
"""Holds the docs, and the comments of code and proofs, to the repository. Prints each fault.

    python3 tests/docs.py

Docs and comments: every function with a path and every file that they name is there, and, but for the READMEs, every other name of two words or more.
docs/READING.md: it names every file of definitions, and its line counts are right.
docs/WRONG_PROGRAMS.md: it has every must-fail edit and no other, those of code apart from those of definitions, and two or more for each public call.
Comments: the crates and specs that they name are there, and what they say of where code and laws stand is so.

Exit status 1 where there is a fault.
"""
import re
import sys
from collections import Counter
from functools import cache
from itertools import groupby
from pathlib import Path

ROOT = Path(__file__).resolve().parents[1]
READING = ROOT / "docs" / "READING.md"
WRONG_PROGRAMS = ROOT / "docs" / "WRONG_PROGRAMS.md"
HEADER = ROOT / "bindings" / "c" / "signon.h"
CODE = "*/src/**/*.rt"
PROOFS = "*/specs/**/*.antt", "*/proofs/**/*.antt"
CALLS = ["hash", "readers", "named round", "writers", "draw permutation", "draw challenges", "draw bits", "draw choices", "make key", "key check"]
CALLS += ["begin", "answer", "open", "give up", "stand-in", "verdict", "program's input", "C functions"]
"""The public calls by the names that docs/WRONG_PROGRAMS.md has for them."""
NOT_COUNTED = re.compile(r"\s*$|(?:pub )?(?:ghost )?use ")
"""A line that READING's counts leave out: blank, or an import."""
COMMENT = re.compile(r"\s*(?://|--) ?(.*)")
"""A line of a comment: what stands behind its mark."""
WORDS = re.compile(r"(.*\S.*)")
"""A line of a paragraph."""
LIST = r"(?:`?\w+`?(?:, | and ))*`?\w+`?"
"""One name, or several as in "`x`, `y` and `z`"."""


def read(path):
    return path.read_text(encoding="utf-8")


def of_crates(*patterns):
    """The files of the crates; what rt makes lies in out/, which no pattern names."""
    return sorted(path for pattern in patterns for path in ROOT.glob(f"crates/{pattern}"))


def listed(names):
    return [name.strip("`") for name in re.split(", | and ", names)]


# --- Docs and comments ---


def passages(lines, part):
    """What the part of a line is, joined over lines in a row that have one, and the first one's number; a path broken behind a slash is made whole."""
    for has_part, group in groupby(enumerate(map(part.match, lines), 1), lambda numbered: bool(numbered[1])):
        if has_part:
            numbers, found = zip(*group)
            text = "\n".join(match[1] for match in found)
            yield numbers[0], " ".join(re.sub(r"/\n(?=\w+\.)", "/", text).split())


def declares(path):
    """Whether a path such as `readers::opening::opening` or `kinds::Kind::number` names a function, method, type or constant of a crate."""
    crate, *modules, name = path.split("::")
    modules = [module for module in modules if module.islower()]
    sources = [ROOT.joinpath("crates", crate, "src", *place).with_suffix(".rt") for place in ([modules] if modules else [["lib"], ["main"]])]
    return any(source.is_file() and re.search(rf"\b(fn|struct|enum|const) {name}\b", read(source)) for source in sources)


def functions_missing(text):
    """The functions in backquotes, each with its path, that no crate has."""
    for path in re.findall(r"`([a-z0-9_]+(?:::\w+)+)", text):
        if not declares(path):
            yield f"no `{path}`"


def files_missing(folder, text):
    """A file is named from the repository's root, or from the folder of the document; NAME stands for any crate, and rt makes what is in out/."""
    for path in re.findall(r"(?<![\w/.-])(?:bench|bindings|crates|docs|tests|tools)/[\w./-]*\w", text):
        kept = path.partition("/out/")[0]
        if "NAME" not in path and not (ROOT / kept).exists() and not (folder / kept).exists():
            yield f"no {path}"


def defined(proof):
    """The names that a proof defines."""
    return set(re.findall(r"^\s*(?:unfoldable |abbrev )?(?:pub )?(?:record |data )?(\S+) [(:{]", proof, re.MULTILINE))


def known_names():
    """What proofs define, what stands in code and in the C header, the crates and the must-fail edits."""
    names = {name for path in of_crates(*PROOFS) for name in defined(read(path))}
    names |= {path.name for path in ROOT.glob("crates/*")} | {path.stem for path in of_crates("*/must-fail/*.edit")}
    for path in [*of_crates(CODE), HEADER]:
        names |= set(re.findall(r"\w+(?:-\w+)*", re.sub(r"//.*", "", read(path))))
    return names


def names_missing(text, known):
    """The names of two words or more that are not known."""
    for name in re.findall(r"`([a-z0-9]+(?:[-_][a-z0-9]+)+[→←]?)`", text):
        if name not in known:
            yield f"no `{name}`"


def said_by_hand(text):
    """No proof is said to be written by hand, as a tool may write it, and nothing to be tried by hand: a wrong program stands in must-fail/."""
    for said in re.findall(r"\bproofs?\b[^.]*\bwritten (?:out )?by hand|\btried by hand", text, re.IGNORECASE):
        yield f'"{said}"'


# --- Docs ---


def documents():
    """The documents and their lines, but for docs/PORT.md and docs/DESIGN-PASS.md, which name what is gone."""
    for path in [ROOT / "README.md", *sorted(ROOT.glob("docs/*.md")), *sorted(ROOT.glob("*/README.md")), *sorted(ROOT.glob("*/*/README.md"))]:
        if path.name not in ("PORT.md", "DESIGN-PASS.md"):
            yield path.relative_to(ROOT), read(path).splitlines()


def counts_wrong(line):
    """What a row `file | lines | ..` counts wrongly, or a row `name (file) | lines | ..`, whose lines go from the name's to the next blank one."""
    row = re.match(r"\| (?:`(\w+)` \()?(crates/\S+\.antt)\)? \| (\d+) \|", line)
    if row and (ROOT / row[2]).is_file():
        name, file, lines = row.groups()
        text = read(ROOT / file)
        if name:
            text = re.search(rf"^(?:abbrev )?pub (?:record |data )?{name} .*?(?=\n\n|\Z)|\Z", text, re.MULTILINE | re.DOTALL)[0]
        counted = sum(not NOT_COUNTED.match(one) for one in text.splitlines())
        if counted != int(lines):
            yield f"{name or file} has {counted} lines, not {lines}"


def specs_left_out(text):
    """The files of definitions that the text does not name."""
    for path in of_crates("*/specs/*.antt"):
        name = str(path.relative_to(ROOT))
        if path.stem != "Lib" and name not in text:
            yield f"leaves out {name}"


def rows_of_edits(text):
    """Crate, edit, the folder that its section is about, and the calls that it names."""
    sections = re.split(r"^## Edits of (code|definitions)$", text, flags=re.MULTILINE)
    for folder, section in zip(sections[1::2], sections[2::2]):
        for crate, edit, calls in re.findall(r"^\| (\w+) \| `(\w+)` \| ([^|]+) \|", section, re.MULTILINE):
            yield crate, edit, "src" if folder == "code" else "specs", calls.split(", ")


def edits_wrong(text):
    """The edits of the tables that are not there or in the wrong one, those that they leave out, and calls that they do not name or know."""
    in_tables = list(rows_of_edits(text))
    kept = {(path.parts[-3], path.stem, folder) for path in of_crates("*/must-fail/*.edit") for folder in re.findall(r"^file: (\w+)/", read(path), re.MULTILINE)}
    named = [(crate, edit, folder) for crate, edit, folder, _ in in_tables]
    yield from (f"no edit {crate} `{edit}` of {folder}/" for crate, edit, folder in sorted({*named} - kept))
    yield from (f"leaves out {crate} `{edit}` of {folder}/" for crate, edit, folder in sorted(kept - {*named}))
    times = Counter(call for *_, calls in in_tables for call in calls)
    yield from (f"has {times[call]} edits for the call {call}" for call in CALLS if times[call] < 2)
    yield from (f"no call {call}" for call in times if call not in [*CALLS, "all", "the desk", "the replay"])


def faults_of_docs(known):
    for path, lines in documents():
        for number, line in enumerate(lines, 1):
            found = [*functions_missing(line), *files_missing((ROOT / path).parent, line), *counts_wrong(line)]
            if path.parts[0] == "docs":
                found += names_missing(line, known)
            yield from (f"{path}:{number}: {fault}" for fault in found)
        yield from (f"{path}:{number}: {fault}" for number, text in passages(lines, WORDS) for fault in said_by_hand(text))
    yield from (f"docs/READING.md: {fault}" for fault in specs_left_out(read(READING)))
    yield from (f"docs/WRONG_PROGRAMS.md: {fault}" for fault in edits_wrong(read(WRONG_PROGRAMS)))


# --- Comments ---


def own_files_missing(crate, text):
    """A path that starts below a crate, as specs/ or `src/lib.rt`, is one of the comment's own crate."""
    for path in re.findall(r"(?<![\w/.-])(?:must-fail|proofs|specs|src)/(?:[\w./-]*\w)?", text):
        if not (ROOT / "crates" / crate / path).exists():
            yield f"no {path} in crate {crate}"


def crates_missing(text):
    """A crate is named as "crate `x`" or "in crate x", several as "crates `x`, `y` and `z`" or "in crates x, y and z"."""
    one = re.findall(r"\b(?:in crate `?|crate `)(\w+)", text)
    several = re.findall(rf"\b(?:in crates |crates (?=`))({LIST})", text)
    for crate in [*one, *(name for names in several for name in listed(names))]:
        if not (ROOT / "crates" / crate).is_dir():
            yield f"no crate {crate}"


def specs_missing(text):
    """The specs that are named with a crate, as in "crate `x`: its specs Y and Z", are that crate's."""
    for crate, names in re.findall(rf"\bcrate `?(\w+)`?: its specs? ({LIST})", text):
        for name in listed(names):
            if not (ROOT / "crates" / crate / "specs" / f"{name}.antt").is_file():
                yield f"no spec {name} in crate {crate}"


def function_misnamed(path, text):
    """The comment that opens the proof of a function starts with its name, or with its whole path."""
    crate, function = path.parts[1], path.parts[3:-1]
    if function and path.stem in ("Invariants", "Answers", "Proof") and not text.startswith((f"`{function[-1]}` ", f"`{'::'.join([crate, *function])}` ")):
        yield f"does not start with `{function[-1]}`"


def promise_not_shown(text, names):
    """Where a proof says that no second outcome fits, or that a refused call changes nothing, it has or cites a law that says so."""
    for said, start in (("no second outcome fits", "one"), (r"a refused \w+ (?:changes nothing|leaves everything)", "refused")):
        if re.search(said, text, re.IGNORECASE) and not any(re.match(f"{start}[-_]", name) for name in names):
            yield f"no law {start}_.. here"


@cache
def needs():
    """The crates of crates.txt, each with all that it needs."""
    rows = [line.partition(":") for line in read(ROOT / "crates.txt").splitlines() if not line.startswith("#")]
    return {named.split()[0]: set(needed.split()) for named, _, needed in rows}


def cites(user, crate):
    """Whether contracts of the user's code cite definitions of the crate."""
    return any(f"Rattle.{crate}.specs." in read(path) for path in of_crates(f"{user}/src/**/*.rt"))


def code_elsewhere(crate, text):
    """Where "the code stands in the crate(s) .." these need this one, and all are named that cite it with no such crate between."""
    for names in re.findall(rf"\bcode stands in the crates? ({LIST})", text, re.IGNORECASE):
        users = {user for user in needs() if crate in needs()[user]}
        citing = {user for user in users if cites(user, crate)}
        nearest = {user for user in citing if not citing & needs()[user]}
        yield from (f"crate {name} does not need {crate}" for name in sorted({*listed(names)} - users))
        yield from (f"the code stands in crate {name} too" for name in sorted(nearest - {*listed(names)}))


def faults_of_comments(known):
    for path in [*of_crates(CODE), *of_crates(*PROOFS)]:
        place, text = path.relative_to(ROOT), read(path)
        crate, folder = place.parts[1:3]
        cited = {name for names in re.findall(r"^use .*\{(.*)\}$", text, re.MULTILINE) for name in names.split(", ")}
        own = defined(text) | cited
        for number, comment in passages(text.splitlines(), COMMENT):
            found = [*functions_missing(comment), *files_missing(path.parent, comment), *own_files_missing(crate, comment)]
            found += [*crates_missing(comment), *specs_missing(comment), *names_missing(comment, known | own)]
            found += [*said_by_hand(comment), *code_elsewhere(crate, comment)]
            if folder == "proofs":
                found += promise_not_shown(comment, own)
            if number == 1:
                found += function_misnamed(place, comment)
            yield from (f"{place}:{number}: {fault}" for fault in found)


def main():
    known = known_names()
    found = [*faults_of_docs(known), *faults_of_comments(known)]
    print("\n".join(found) or "docs and comments name nothing that is not there")
    sys.exit(1 if found else 0)


if __name__ == "__main__":
    main()
