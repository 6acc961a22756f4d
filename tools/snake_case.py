#!/usr/bin/env python3
"""Brings the names that this repository's definitions and lemmas have to the spelling of today's library: words in snake case, with a dash only
where it joins two names, as in `length-joined`. Run once, at the top of the repository, after the kit's port.py.

It renames what specs/ and the lemma files right in proofs/ declare, everywhere below crates/: in definitions, lemmas, proofs, contracts and
must-fail edits. Functions, exported names, strings and the names that Rattle makes for goals stay. It stops where two names would fall together."""

import glob
import re
import sys

DECLARED = re.compile(r"^(?:unfoldable |abbrev )?(?:pub )?(?:record |data )?([^\W\d][\w'-]*) (?:: |\()", re.M)
FIELD = re.compile(r"^  pub ([^\W\d][\w'-]*) :", re.M)

# Names whose words are no names, though each is one elsewhere.
PLAIN = set("""choices-pair-off fine-shows-digest one-answer-for-c one-begin one-begin-for-c one-key-check one-more-refused one-opening-check one-output-for-c
one-reading one-verdict one-writing refused-shows-nothing refused-writes-nothing small-choices-pair-off the-first-refusal-counts""".split())

# Constructors, and names inside a module.
INNER = {"ranOut": "ran_out", "roomTold": "room_told", "roundsTold": "rounds_told", "getD-start": "get_or-start", "getD-last": "get_or-last"}

# Fields that are named for what they hold, beside a lemma of the same name elsewhere.
HERE = {
    "crates/demands/proofs/Demand1.antt": {"key_check_lem": "key_check", "stand_in_lem": "stand_in"},
    "crates/demands/proofs/Demand2.antt": {"open_told_lem": "open-told"},
    "crates/demands/proofs/Instance.antt": {"open_told_lem = refl": "open-told = refl"},
}

# Names of the library that a lemma's name may be joined from.
LIBRARY = set("""add all append at below concat cons cond count drop false ge get get_or gt index inverse le length lt map mem mod mul nat_eq nil replicate set
sub suc sum take tests true zero zip_with""".split())


def declared():
    """The repository's own names, those that its proofs of functions declare, and the fields among the own."""
    own, goals, fields = set(), set(), set()
    for file in glob.glob("crates/*/specs/*.antt") + glob.glob("crates/*/proofs/*.antt"):
        text = open(file, encoding="utf-8").read()
        fields |= set(FIELD.findall(text))
        own |= set(DECLARED.findall(text)) | fields
    for file in glob.glob("crates/*/proofs/*/**/*.antt", recursive=True):
        goals |= set(DECLARED.findall(open(file, encoding="utf-8").read()))
    return own, goals, fields


def words(name):
    """The name with its words in snake case; a name that begins with a capital is a type's, and stays."""
    if name[0].isupper():
        return name
    name = name.replace("getD", "get_or")
    return re.sub(r"(?<=[a-z0-9])([A-Z])(?=[a-z]|[A-Z]|$)", lambda m: "_" + m[1].lower(), name)


def joined(name, known):
    """The name with its dashes kept between two names, and its words joined by `_` elsewhere."""
    if name in PLAIN:
        return name.replace("-", "_")
    parts = [words(p) for p in name.split("-")]
    out = parts[0]
    for before, after in zip(parts, parts[1:]):
        out += ("-" if before in known and after in known else "_") + after
    return out


def renaming():
    own, goals, fields = declared()
    known = {words(n) for n in own if "-" not in n} | LIBRARY
    to = {n: joined(n, known) for n in own if re.search(r"[a-z0-9][A-Z]|-", n) and n not in goals}
    to = {a: b for a, b in to.items() if a != b}
    taken = own - set(to)
    for a, b in sorted(to.items(), key=lambda names: ("-" in names[0], names)):
        if b in taken and "-" in a:
            to[a] = b = b + "_lem"  # a lemma that would have its function's name
        elif b in taken:
            to[b] = b + "_lem"  # port.py has respelt that lemma before
            taken.add(to[b])
            continue
        if b in taken:
            sys.exit(f"`{a}` and `{b}` would fall together")
        taken.add(b)
    return {**to, **INNER}, fields


def renamed(text, to, fields=()):
    """In a definition or a proof: behind a dot stands a field, renamed where it is one of the repository's records."""
    word = re.compile(r"(?<![\w'◌-])(" + "|".join(sorted(map(re.escape, to), key=len, reverse=True)) + r")(?![\w'-])")

    def new(m):
        return m[1] if m.string[: m.start()].endswith(".") and m[1] not in fields else to[m[1]]

    out = []
    for line in text.split("\n"):
        code, mark, comment = line.partition("--") if re.match(r"\s*--", line) else line.partition(" -- ")
        out.append(word.sub(new, code) + mark + word.sub(lambda m: m[1] if "-" in m[1] else to[m[1]], comment))
    return "\n".join(out)


def clauses_renamed(text, to):
    """In a source file only ghost imports, clauses and comments; code and strings stay."""
    out, depth = [], 0
    for line in text.split("\n"):
        code, mark, comment = line.partition("//")
        ghost = depth > 0 or re.match(r"\s*(ghost|requires|ensures)", code)
        if ghost:
            depth += code.count("{") - code.count("}")
        out.append((renamed(code, to) if ghost else code) + mark + renamed("-- " + comment, to)[3:])
    return "\n".join(out)


def tight(text):
    """An edit's text in the spelling that port.py gave the definitions."""
    text = re.sub(r"\(([\w']+)((?: \.[\w'-]+)+)\)", lambda m: m[1] + m[2].replace(" ", ""), text)
    text = re.sub(r"\(([\w']+ [\w']+) (\.[a-z][\w'-]*)\)", r"(\1)\2", text)
    text = re.sub(r"(?<=[\w')]) (\.[a-z][\w'-]*)", r"\1", text)
    return re.sub(r"\bgetD\b", "get_or", text).replace("·specs.specs.", ".specs.").replace("Rattle·", "Rattle.").replace("_++_", "◌++◌")


OF_PORT = {}


def edits_renamed(text, to, fields):
    out = []
    for line in text.split("\n"):
        if line[:5] in ("old: ", "new: ") and "file: src/" not in text:
            line = line[:5] + renamed(tight(renamed(line[5:], OF_PORT)), to, fields)
        out.append(line)
    return "\n".join(out)


def of_port():
    """The names that port.py itself respelt, as its message lists them."""
    names = """allBelow andThen answerOf bitOf blockAt byteOf bytesOf choiceOf countOf firstOf listOf numberIn numberOf openedOf pairAt placeOf placesOf
    restOf rowOf rowsOf secondOf sumOf turnOf valueOf valuesOf wholeOf wordAt wordOf""".split()
    return {n: words(n) for n in names}


def main():
    OF_PORT.update(of_port())
    to, fields = renaming()
    for file in sorted(glob.glob("crates/**/*", recursive=True)):
        if not file.endswith((".antt", ".rt", ".edit")) or "/out/" in file:
            continue
        text = old = open(file, encoding="utf-8").read()
        if file.endswith(".antt"):
            text = renamed(text, to, fields)
            for a, b in HERE.get(file, {}).items():
                text = text.replace(a, b)
        elif file.endswith(".rt"):
            text = clauses_renamed(text, to).replace("typeof.c.", "c·")
        else:
            text = edits_renamed(text, to, fields)
        if text != old:
            open(file, "w", encoding="utf-8").write(text)
    for a, b in sorted(to.items()):
        print(a, b)


main()
