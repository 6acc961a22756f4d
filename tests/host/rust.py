"""Runs the tests of the binding in Rust over the archive."""
import re

from host import ROOT, Failed, archive, run


def check():
    printed = run(["cargo", "test", "--release", "--offline"], ROOT / "bindings" / "rust", SIGNON_ARCHIVE_DIR=str(archive().parent))
    passed = sum(map(int, re.findall(r"test result: ok\. (\d+) passed", printed)))
    if not passed:
        raise Failed(f"no test of the Rust binding ran\n{printed}")
    return f"{passed} tests passed"
