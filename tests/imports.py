#!/usr/bin/env python3
"""Finds the imports of code and proofs that nothing uses, and the names and modules that a file imports twice. Prints each.

    python3 tests/imports.py

A name is used where it stands as a word outside of imports and comments; one of `ghost use` where it stands in a contract. A word behind a dot is no
use: it is a field, or a name of the module before the dot. Nor is a name in a paragraph that binds it by `let`. That an argument of a law hides an
import of its name is not seen. `pub use` hands names on, and is left alone; so is what code imports of std, whose traits are used by their methods.

Exit status 1 where there is one.
"""
import re
import sys
from collections import Counter
from pathlib import Path

ROOT = Path(__file__).resolve().parents[1]
FILES = "src/**/*.rt", "specs/**/*.antt", "proofs/**/*.antt"
IMPORT_OF_CODE = re.compile(r"^ *(?:pub (?:ghost )?use [^;]*;\n|((?:ghost )?use [^;]*);\n)", re.MULTILINE)
IMPORT_OF_PROOF = re.compile(r"^(?:pub use [^{\n]*(?:\{[^}]*\})?.*\n|(use [^{\n]*(?:\{[^}]*\})?.*)\n)", re.MULTILINE)
"""An import, over as many lines as it has."""
IN_LOGIC = re.compile(r"\b(?:requires|ensures|ghost|tactic)\b[^{(;]*[{(]")
"""What of code is written in the language of the proofs, up to the bracket that opens it."""
COMMENT_OR_STRING = re.compile(r'"(?:\\.|[^"\\])*"|//[^\n]*', re.DOTALL)


def imported(statement):
    """The names that come by an import: `use a::b`, `use a::{b, c}`, `use A.B.{◌+◌, b as c}`, `use A.B`, `use A.B as c`."""
    listed = re.search(r"\{(.*)\}", statement, re.DOTALL)
    names = [name for name in re.split(r",\s*", listed[1].strip()) if name] if listed else [statement]
    return [re.split(r" as |::|\.", name.strip())[-1] for name in names]


def module(statement):
    """Where the names in an import's braces come from."""
    return re.findall(r"use (.*)(?:\.|::)\{", statement)


def in_logic(code):
    """The parts of code that are written in the language of the proofs."""
    for head in IN_LOGIC.finditer(code):
        depth, end = 1, head.end()
        while depth and end < len(code):
            depth += (code[end] in "{(") - (code[end] in "})")
            end += 1
        yield code[head.end() : end]


def words_of_code(code):
    return set(re.findall(r"(?<![\w.])\w+|(?<=\.\.)\w+", code))


def words_of_logic(text):
    text = "\n".join(line for line in text.splitlines() if not line.lstrip().startswith("--"))
    return {word for paragraph in text.split("\n\n") for word in words_of_paragraph(paragraph)}


def words_of_paragraph(text):
    words = {word.partition(".")[0] for word in re.split(r"[\s(){},;]+", text)}
    return words - set(re.findall(r"\blet (\S+) [=:]", text))


def is_used(name, words):
    """An operator such as `◌+◌` is used by its parts, or as it is, as where it is unfolded."""
    return name == "*" or name in words or ("◌" in name and words.issuperset(part for part in name.split("◌") if part))


def unused(imports, words):
    return [f"{name} is not used" for statement in imports for name in imported(statement) if not is_used(name, words)]


def repeated(imports):
    counts = Counter(name for statement in imports for name in imported(statement) + module(statement))
    return [f"{name} is imported twice" for name, count in counts.items() if count > 1]


def apart(kind, text):
    """The imports of a text, and the rest of it."""
    return [found[1] for found in kind.finditer(text) if found[1]], kind.sub("", text)


def groups(path, text):
    """The imports of a file, with the words that may use them."""
    if path.suffix == ".antt":
        imports, rest = apart(IMPORT_OF_PROOF, text)
        return [(imports, words_of_logic(rest))]
    imports, code = apart(IMPORT_OF_CODE, COMMENT_OR_STRING.sub(" ", text))
    ghosts = [statement for statement in imports if statement.startswith("ghost")]
    others = [statement for statement in imports if statement not in ghosts and not statement.startswith("use std::")]
    contracts = words_of_logic("\n\n".join(in_logic(code)))
    return [(others, words_of_code(code) | contracts), (ghosts, contracts)]


def faults():
    for path in sorted(path for part in FILES for path in ROOT.glob(f"crates/*/{part}")):
        for imports, words in groups(path, path.read_text(encoding="utf-8")):
            yield from (f"{path.relative_to(ROOT)}: {fault}" for fault in unused(imports, words) + repeated(imports))


def main():
    found = list(faults())
    print("\n".join(found) or "every import is used")
    sys.exit(1 if found else 0)


if __name__ == "__main__":
    main()
