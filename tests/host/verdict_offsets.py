"""Runs the program `verdict` on an honest sign-on, on the same with one byte changed at every offset in turn, and on inputs of every length,
and holds each line that it prints to the model's.
"""
import subprocess
import sys
import time
from itertools import chain
from multiprocessing import Pool, cpu_count

from host import ROOT, Failed, made, program

sys.path.insert(0, str(ROOT / "tests" / "model"))

from check import SAMPLE
from program_input import honest_input
from signon import PROGRAM_READS, verdict_line

PROGRAM = program("verdict")
HONEST = honest_input("every offset", 2, 64, 37, 31)
SHOWN = 5
"""How many of the lines that differ are shown."""


# --- Inputs, each with its name ---


def changed():
    """The change hangs on the offset, and is never none."""
    for offset, byte in enumerate(HONEST):
        other = byte ^ 1 + 37 * offset % 255
        yield f"byte {offset} changed from {byte} to {other}", HONEST[:offset] + bytes([other]) + HONEST[offset + 1 :]


def truncated():
    for length in range(len(HONEST)):
        yield f"cut to {length} bytes", HONEST[:length]
    for length in range(len(SAMPLE)):
        yield f"document 01's sample cut to {length} bytes", SAMPLE[:length]


def left_over():
    for count in (1, 2, 3, 4, 255, 256, 1000):
        yield f"{count} bytes left over", HONEST + bytes(count)
    yield "sent twice", HONEST + HONEST


def around_the_limit():
    """Left-over bytes up to the limit and beyond it; and a last frame that ends before, at and behind the limit, in inputs that end there
    too: bytes behind the limit are no part of it."""
    sizes = [PROGRAM_READS + more for more in (-1, 0, 1, 2, 4464, PROGRAM_READS)]
    openings = len(HONEST) - (6 + 64 * 31)
    for size in sizes:
        yield f"left over up to {size} bytes", HONEST + bytes(size - len(HONEST))
        for end in sizes[:4]:
            frame = (end - openings - 2).to_bytes(2, "big") + HONEST[openings + 2 :]
            yield f"{size} bytes, the openings up to {end}", (HONEST[:openings] + frame).ljust(size, b"\0")


def inputs():
    return chain(changed(), truncated(), left_over(), around_the_limit())


# --- Runs ---


def printed(sent):
    ran = subprocess.run([PROGRAM], input=sent, stdout=subprocess.PIPE, check=True)
    return ran.stdout.decode()


def printed_when_slow(sent):
    """The same, where the pipe delivers little at a time."""
    with subprocess.Popen([PROGRAM], stdin=subprocess.PIPE, stdout=subprocess.PIPE) as running:
        for start in range(0, len(sent), 100):
            running.stdin.write(sent[start : start + 100])
            running.stdin.flush()
            time.sleep(0.001)
        return running.communicate()[0].decode()


def compared(named):
    """The input's name, what the program printed and what the model says."""
    name, sent = named
    return name, printed(sent), verdict_line(sent)


def fixed():
    """Lines that are known without the model."""
    yield "an honest sign-on", printed(HONEST), "accepted 31\n"
    yield "an honest sign-on, little by little", printed_when_slow(HONEST), "accepted 31\n"
    yield "document 01's sample", printed(SAMPLE), "refused 12 0 0\n"
    yield "no input", printed(b""), "refused 1 1 0\n"


def check():
    made("verdict")
    with Pool(cpu_count()) as pool:
        lines = [*fixed(), *pool.imap(compared, inputs(), chunksize=32)]
    wrong = [f"{name}: {got!r}, not {wanted!r}" for name, got, wanted in lines if got != wanted]
    if wrong:
        raise Failed("\n".join([f"{len(wrong)} lines differ", *wrong[:SHOWN]]))
    accepted = sum(wanted.startswith("accepted") for _, _, wanted in lines)
    return f"{len(lines)} inputs, {len(HONEST)} of them with one byte changed; {accepted} accepted"
