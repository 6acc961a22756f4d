#!/usr/bin/env python3
"""Draws the crates in layers, docs/layers.svg, from crates.txt and the tables of docs/CRATES.md: a section is a band, the sections within it are
columns side by side, and an arrow goes to what a crate needs directly. Run it again where crates or sections change:

    python3 tools/layers.py            writes the drawing
    python3 tools/layers.py --check    exit status 1 where it is not as it would be written, or where the tables do not have every crate once
"""
import re
import sys
from collections import Counter
from pathlib import Path

from layering.rows import Section
from layering.svg import Drawing

ROOT = Path(__file__).resolve().parents[1]
CRATES, TABLES, PICTURE = (ROOT / name for name in ("crates.txt", "docs/CRATES.md", "docs/layers.svg"))


def read_needs():
    """All that each crate needs, but for the kit's libraries, which are not drawn. The order of crates.txt has no part in the drawing."""
    lines = [line for line in CRATES.read_text(encoding="utf-8").splitlines() if line and not line.startswith("#")]
    rows = {named.split()[0]: needed.split() for named, _, needed in (line.partition(":") for line in lines)}
    return {crate: sorted(set(needed) & set(rows)) for crate, needed in rows.items()}


def direct(needs):
    """What each crate needs, without what it needs through another."""
    return {crate: [needed for needed in named if not any(needed in needs[other] for other in named)] for crate, named in needs.items()}


def read_bands():
    """The bands of the tables, from the bottom up."""
    _, *sections = re.split(r"^## ", TABLES.read_text(encoding="utf-8"), flags=re.MULTILINE)
    bands = [read_band(*re.split(r"^### ", section, flags=re.MULTILINE)) for section in sections]
    return [band for band in bands if band.all_crates]


def read_band(outside, *inside):
    columns = [Section(*read_section(section)) for section in inside]
    return Section(*read_section(outside), tuple(column for column in columns if column.crates))


def read_section(section):
    """The title of a section, and the crates of its table."""
    title, *lines = section.splitlines()
    rows = (re.match(r"\| `(\w+)` \|", line) for line in lines)
    return title, tuple(row[1] for row in rows if row)


def table_faults(needs, bands):
    """Crates without a row of their own, and rows without a crate."""
    rows = Counter(crate for band in bands for crate in band.all_crates)
    yield from (f"docs/CRATES.md has no row for the crate {crate}" for crate in needs if crate not in rows)
    yield from (f"docs/CRATES.md has {count} rows for the crate {crate}" for crate, count in rows.items() if crate in needs and count > 1)
    yield from (f"docs/CRATES.md has a row for {crate}, which is no crate of crates.txt" for crate in rows if crate not in needs)


def layer_faults(needs, bands):
    """Crates that need one of a band above their own."""
    layer = {crate: at for at, band in enumerate(bands) for crate in band.all_crates}
    for crate, named in needs.items():
        for needed in named:
            if layer[needed] > layer[crate]:
                yield f"{crate} needs {needed}, which docs/CRATES.md has in a band above its own: {bands[layer[needed]].title}"


def fail(faults):
    print("\n".join(faults))
    sys.exit(1)


def drawn():
    needs, bands = read_needs(), read_bands()
    faults = [*table_faults(needs, bands)] or [*layer_faults(needs, bands)]
    if faults:
        fail(faults)
    return Drawing(bands, direct(needs)).svg()


def check():
    if drawn() != (PICTURE.read_text(encoding="utf-8") if PICTURE.is_file() else None):
        fail(["docs/layers.svg is not what tools/layers.py draws from crates.txt and docs/CRATES.md: run it again"])


if __name__ == "__main__":
    check() if "--check" in sys.argv[1:] else PICTURE.write_text(drawn(), encoding="utf-8")
