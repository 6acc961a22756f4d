"""Runs the program `desk` over files and holds what it prints and writes to the model: every command, valid and refused, and files that can't
be read or written. Files are written where the last line is `done`, and nowhere else.

    python3 tests/host/desk.py

writes the sign-on of the desk's run in the gate, crates/desk/data, anew.
"""
import re
import subprocess
import sys
from pathlib import Path
from random import Random
from tempfile import TemporaryDirectory

from host import ROOT, Failed, made

sys.path.insert(0, str(ROOT / "tests" / "model"))

import signon
from card_cases import Lent, record_of, session_of
from making import residues
from register_cases import honest
from signon import FRESH, PERMUTATIONS, Done, Refused, Source, bit_at, frame_of, read_frame, start_of, stretch

MESSAGES = "system", "public", "commitments", "challenges", "answers", "bits", "openings"
DATA = ROOT / "crates" / "desk" / "data"
REFUSALS = "SHORT LONG VERSION KIND SHAPE VALUE PERM KEY ROOM DRAW STAGE WEAK FIRST SECOND SELF".split()
ROOM = 16_384
"""More than any call writes, and the most that a file of the desk has."""
TRY = 256
"""The random bytes of one try at a key."""
SHOWN = 5
"""How many of the differences are shown."""
COMMANDS = {
    "system": "N M RANDOM OUT",
    "key": "SYSTEM RANDOM PUBLIC SECRET",
    "check-key": "SYSTEM PUBLIC SECRET",
    "choices": "N ROUNDS RANDOM OUT",
    "begin": "RECORD ROUNDS SYSTEM PUBLIC SECRET CHOICES OUT",
    "challenges": "ROUNDS RANDOM OUT",
    "answer": "RECORD SYSTEM PUBLIC SECRET CHALLENGES CHOICES OUT",
    "bits": "ROUNDS RANDOM OUT",
    "open": "RECORD SYSTEM PUBLIC SECRET BITS CHOICES OUT",
    "give-up": "RECORD CHOICES",
    "verdict": "GRADE SYSTEM PUBLIC COMMITMENTS CHALLENGES ANSWERS BITS OPENINGS",
    "stand-in": "CHALLENGE BIT SYSTEM PUBLIC LENT OUT",
    "show": "FILE",
    "flip": "FILE PLACE BIT OUT",
}


# --- The desk in a folder of its own ---


class Desk:
    def __init__(self, folder):
        self.folder = Path(folder)
        self.program = made("desk")
        self.runs = 0
        self.wrong = []

    def files(self):
        return {path.name: path.read_bytes() for path in self.folder.iterdir() if path.is_file()}

    def put(self, **files):
        for name, content in files.items():
            (self.folder / name).write_bytes(content)

    def run(self, *words):
        """What is printed, by lines."""
        self.runs += 1
        ran = subprocess.run([self.program, *map(str, words)], cwd=self.folder, stdout=subprocess.PIPE, stderr=subprocess.DEVNULL, check=True)
        return ran.stdout.decode().splitlines()

    def faults(self, *words):
        """What goes to standard error, by lines."""
        ran = subprocess.run([self.program, *words], cwd=self.folder, stdout=subprocess.DEVNULL, stderr=subprocess.PIPE, check=True)
        return ran.stderr.decode().splitlines()

    def expect(self, name, got, wanted):
        if got != wanted:
            self.wrong.append(f"{name}: {got!r}, not {wanted!r}")

    def call(self, words, last, **written):
        """Runs a command, whose last line has to start with `last` and which has to leave every file as it was but those written."""
        wanted = {**self.files(), **written}
        lines = self.run(*words)
        name = " ".join(map(str, words))
        self.expect(name, lines[-1][: len(last)] if lines else "", last)
        self.expect(name + ", the files", self.files(), wanted)
        return lines

    def told(self, words, answer, **written):
        """The same, where the model has told an answer; a refusal says a sentence more."""
        if isinstance(answer, Done):
            return self.call(words, "done", **written)
        lines = self.call(words, f"refused {REFUSALS[answer.number - 1]} {answer.number} {answer.buffer} {answer.place}: ")
        self.expect("the sentence of " + lines[-1], len(lines[-1].split(": ", 1)[1]) > 20, True)
        return lines


def flipped(content, place, bit):
    return content[:place] + bytes([content[place] ^ 128 >> bit]) + content[place + 1 :]


# --- Commands ---


def test_help(desk):
    """Each command with no arguments, with one too few and with one too many prints its help, and does nothing."""
    desk.put(file=b"x")
    for command, arguments in COMMANDS.items():
        count = len(arguments.split())
        for given in (0, count - 1, count + 1):
            lines = desk.call([command, *["file"] * given] if given else [command], "  ")
            desk.expect(f"the help of {command}", lines[0], f"desk {command} {arguments}")
    for words in ([], ["help"], ["no-such-command"], ["no-such-command", "file"]):
        lines = desk.run(*words)
        printed = " ".join(lines)
        desk.expect(f"help names every command {words}", [c for c in COMMANDS if f" {c} " not in printed], [])
        unknown = words[:1] == ["no-such-command"]
        desk.expect(f"the last line of {words}", lines[-1] == "failed: no-such-command is no command of the desk", unknown)


def drawn(source, frame):
    """What a drawing by the model's source comes to: an answer, and what is written."""
    try:
        made = frame(source)
    except signon.Refusal as refusal:
        return refusal.told, {}
    return Done((source.used,)), {"out": made}


def test_system(desk, rng):
    for n, m, size in ((3, 1, 40), (64, 37, 1200), (64, 32, 2000), (2, 1, 1), (5, 2, 5), (3, 1, 0)):
        random = rng.randbytes(size)
        desk.put(random=random)
        answer, written = drawn(Source(random), lambda source: frame_of(1, [n, m], source.residues(m * (n - m))))
        lines = desk.told(["system", n, m, "random", "out"], answer, **written)
        if written:
            desk.expect("bytes used", lines[0], f"used {answer.values[0]} random bytes")
    for n, m in ((1, 1), (65, 3), (5, 5), (5, 0), (300, 200), (65535, 65534)):
        desk.told(["system", n, m, "random", "out"], Refused(signon.SHAPE, signon.NONE, 0))


def test_key(desk, rng):
    system = frame_of(1, [64, 37], residues(rng, 27 * 37))
    skipped = bytes([255]) * TRY
    good = rng.randbytes(TRY)
    desk.put(system=system)
    for tries, random in ((1, good), (2, skipped + good), (5, 4 * skipped + good), (2, skipped + good[:5]), (1, b""), (3, 2 * skipped)):
        desk.put(random=random)
        answer, (out,) = signon.make_key(system, random[(tries - 1) * TRY :][:TRY], bytes(ROOM))
        written = {"public": out[:69], "secret": out[69:138]} if isinstance(answer, Done) else {}
        lines = desk.told(["key", "system", "random", "public", "secret"], answer, **written)
        desk.expect(f"tries over {len(random)} bytes", lines[0], f"tries: {tries}")
    desk.told(["check-key", "system", "public", "secret"], Done())
    desk.put(damaged=flipped(system, 3, 7))
    answer = signon.make_key(flipped(system, 3, 7), good, bytes(ROOM)).answer
    desk.told(["key", "damaged", "random", "public", "secret"], answer)


def test_drawings(desk, rng):
    for rounds, size in ((1, 1), (31, 200), (64, 300), (64, 20), (0, 50), (65, 50), (8, 0)):
        random = rng.randbytes(size)
        desk.put(random=random)
        for command, draw in (("challenges", signon.draw_challenges), ("bits", signon.draw_bits)):
            answer, (out,) = draw(rounds, random, bytes(ROOM))
            kind = {"challenges": 5, "bits": 7}[command]
            written = {"out": out[: start_of(kind) + signon.rest_size(kind, rounds, 0)]} if isinstance(answer, Done) else {}
            desk.told([command, rounds, "random", "out"], answer, **written)
    for n, rounds, size in ((3, 2, 60), (64, 64, ROOM), (64, 64, ROOM + 5000), (64, 64, 8000), (1, 3, 60), (3, 65, 60)):
        random = rng.randbytes(size)
        desk.put(random=random)
        answer, (out,) = signon.draw_choices(n, rounds, random[:ROOM], bytes(ROOM))
        written = {"out": out[: 2 * n * rounds]} if isinstance(answer, Done) else {}
        desk.told(["choices", n, rounds, "random", "out"], answer, **written)


def test_sign_on(desk, rng, n, m, rounds, grade):
    """A sign-on from begin to the verdict, each call refused before its stage and after it, and the verdict over damaged messages."""
    lent = Lent(rng, n, m, rounds)
    system, public, secret = lent.shown(1, 2, 3)
    challenges, bits = lent.shown(5, 7)
    keys, keys_named = (system, public, secret), ("system", "public", "secret")
    choices = bytes(lent.choices)
    desk.put(system=system, public=public, secret=secret, challenges=challenges, bits=bits, choices=choices)
    (desk.folder / "record").unlink(missing_ok=True)
    begin = ["begin", "record", rounds, *keys_named, "choices", "commitments"]
    answer = ["answer", "record", *keys_named, "challenges", "choices", "answers"]
    opened = ["open", "record", *keys_named, "bits", "choices", "openings"]
    stage = Refused(signon.STAGE, signon.NONE, 0)
    desk.call(answer, "failed: record can't be opened")
    told, (session, out) = signon.begin(FRESH, rounds, *keys, choices, bytes(ROOM))
    desk.told(begin, told, record=record_of(session), commitments=out[: told.values[0]])
    desk.told(begin, stage)
    desk.told(opened, stage)
    told, (session, out) = signon.answer(session, *keys, challenges, choices, bytes(ROOM))
    desk.told(answer, told, record=record_of(session), answers=out[: told.values[0]])
    desk.told(answer, stage)
    desk.put(copy=choices)
    told, (session, zeroed, out) = signon.open_rounds(session, *keys, bits, choices, bytes(ROOM))
    desk.told(opened, told, record=record_of(session), choices=zeroed, openings=out[: told.values[0]])
    desk.told(opened, stage)
    desk.told(begin, signon.begin(session, rounds, *keys, zeroed, bytes(ROOM)).answer)
    judge_all(desk, grade)
    desk.put(choices=choices)
    desk.call(["give-up", "record", "choices"], "done", record=bytes(68), choices=bytes(len(choices)))


def judge_all(desk, grade):
    """The verdict as it is, for other grades, and with each message damaged in its length, its header and its body."""
    frames = [desk.files()[name] for name in MESSAGES]

    def judge(grade):
        answer = signon.verdict(grade, *(desk.files()[name] for name in MESSAGES)).answer
        words = ["verdict", grade, *MESSAGES]
        if isinstance(answer, Done):
            desk.call(words, "accepted %d" % answer.values)
        else:
            desk.told(words, answer)

    for other in (0, 1, 2, 3, 65535):
        judge(other)
    for name, frame in zip(MESSAGES, frames):
        places = {*range(min(7, len(frame))), len(frame) - 1}
        damaged = [flipped(frame, place, bit) for place in places for bit in (0, 7)]
        for content in (*damaged, frame[:-1], frame + b"\0", b""):
            desk.put(**{name: content})
            judge(grade)
        desk.put(**{name: frame})


def test_refusals(desk, rng):
    """The card's calls with each file damaged: the refusal is the model's, and nothing is written."""
    lent = Lent(rng, 5, 3, 3)
    names = ["system", "public", "secret", "choices"]
    files = dict(zip(names, (*lent.shown(1, 2, 3), bytes(lent.choices))))
    desk.put(**files, record=bytes(68))
    for name in names:
        for content in [flipped(files[name], place, bit) for place in range(len(files[name])) for bit in (0, 7)] + [files[name][:-1], b""]:
            now = {**files, name: content}
            desk.put(**{name: content})
            if name != "choices":
                desk.told(["check-key", *names[:3]], signon.key_check(*(now[k] for k in names[:3])).answer)
            answer, (session, out) = signon.begin(FRESH, 3, *(now[k] for k in names), bytes(ROOM))
            written = {"record": record_of(session), "out": out[: 5 + 64 * 3]} if isinstance(answer, Done) else {}
            desk.told(["begin", "record", 3, *names, "out"], answer, **written)
            desk.put(record=bytes(68))
        desk.put(**files)
    for record in (bytes([4]) + bytes(67), bytes([1, 5, 3, 3]) + bytes(64), bytes([3, 9, 9, 9]) + bytes(64)):
        desk.put(record=record)
        answer, (session, out) = signon.begin(session_of(record), 3, *(files[k] for k in names), bytes(ROOM))
        written = {"record": record_of(session), "out": out[: 5 + 64 * 3]} if isinstance(answer, Done) else {}
        desk.told(["begin", "record", 3, *names, "out"], answer, **written)


def test_stand_in(desk, rng):
    lent = Lent(rng, 7, 4, 1)
    system, public = lent.shown(1, 2)
    choices = bytes(lent.choices)
    desk.put(system=system, public=public, lent=choices)
    for challenge, bit in ((0, 0), (0, 1), (250, 0), (17, 1), (251, 0), (3, 2)):
        answer, (out,) = signon.stand_in(challenge, bit, system, public, choices, bytes(ROOM))
        written = {"out": out[:46]} if isinstance(answer, Done) else {}
        desk.told(["stand-in", challenge, bit, "system", "public", "lent", "out"], answer, **written)
    for content in (choices[:-1], b"\xfb" + choices[1:], choices[:-1] + choices[:1]):
        desk.put(lent=content)
        answer = signon.stand_in(1, 1, system, public, content, bytes(ROOM)).answer
        desk.told(["stand-in", 1, 1, "system", "public", "lent", "out"], answer)


# --- Frames in words ---


def rows_of(kind, body):
    """The values of a frame as they have to be shown, row by row."""
    if kind == 4:
        return [part.hex() for k in range(body.first) for part in (stretch(body.rest, 32, 2 * k), stretch(body.rest, 32, 2 * k + 1))]
    if kind == 7:
        return [[bit_at(body.rest, k) for k in range(body.first)]]
    width = {1: body.first - body.second}.get(kind, body.first)
    return [list(stretch(body.rest, width, k)) for k in range(len(body.rest) // width)]


def rows_shown(kind, lines):
    if kind == 4:
        return re.findall(r"\b[0-9a-f]{64}\b", "\n".join(lines))
    return [[int(word) for word in line.split(":", 1)[1].split()] for line in lines]


def show(desk, frame):
    """A frame as the desk shows it: its kind, numbers and values; or the model's refusal, and the byte at its place in brackets."""
    desk.put(frame=frame)
    kind = frame[3] if len(frame) > 3 and 1 <= frame[3] <= 8 else 1
    answer = signon.read(kind, frame).answer
    lines = desk.told(["show", "frame"], answer)
    if isinstance(answer, Done):
        body = read_frame(kind, frame)
        numbers = [number for number in (body.first, body.second) if number]
        desk.expect("the numbers", [int(word) for word in re.findall(r"\d+", lines[0])], [kind, *numbers])
        desk.expect(f"the values of kind {kind}", rows_shown(kind, lines[1:-1]), rows_of(kind, body))
    elif answer.place < len(frame):
        marked = re.fullmatch(r"  from place (\d+):(.*)", lines[-2])
        row, start = marked[2].split(), int(marked[1])
        desk.expect("the row that is shown", [word.strip("[]") for word in row], [f"{byte:02x}" for byte in frame[start : start + 16]])
        desk.expect("the place marked", [start + k for k, word in enumerate(row) if word.startswith("[")], [answer.place])


def test_show(desk, rng):
    for n, m, rounds in ((3, 1, 2), (64, 37, 31), (2, 1, 1)):
        lent = Lent(rng, n, m, rounds)
        for frame in (*honest(lent), *lent.shown(3)):
            show(desk, frame)
            for place in {*range(min(18, len(frame))), len(frame) - 1}:
                for bit in range(8):
                    show(desk, flipped(frame, place, bit))
            for content in (frame[:-1], frame + b"\0", frame[:3]):
                show(desk, content)
            if frame[3] in PERMUTATIONS:
                show(desk, frame[:-1] + frame[-2:-1])
    show(desk, b"")


def test_words(desk):
    """Sentences, by hand."""
    desk.put(frame=bytes.fromhex("0006010203 0304fb"))
    lines = desk.call(["show", "frame"], "refused VALUE 6 2 7: the 3rd residue of the public key is 251; residues are 0 to 250")
    desk.expect("the place", lines[0], "  from place 0: 00 06 01 02 03 03 04 [fb]")
    desk.put(frame=bytes.fromhex("00070102"))
    desk.call(["show", "frame"], "refused SHORT 1 2 0: the count calls for 9 bytes, and there are 4 in the public key")
    desk.put(frame=bytes.fromhex("0006010103 010102"))
    lines = desk.call(["show", "frame"], "done")
    desk.expect("document 01's small system", lines, ["kind 1, a system: n 3, m 1", "  row:   1   2", "done"])


# --- Files ---


def test_files(desk, rng):
    """What can't be read or written: a clear line, and every file as it was."""
    desk.put(random=rng.randbytes(100), large=bytes(ROOM + 1), record=bytes(67), frame=b"")
    (desk.folder / "folder").mkdir()
    desk.call(["show", "missing"], "failed: missing can't be opened for reading")
    desk.expect("why it can't be", desk.faults("show", "missing"), ["missing: No such file or directory"])
    desk.call(["show", "folder"], "failed: folder can't be read")
    desk.call(["show", "large"], "failed: large is too large")
    desk.call(["challenges", 31, "missing", "out"], "failed: missing can't be opened for reading")
    desk.call(["challenges", "x", "random", "out"], "failed: x is no number of 0 to 65535")
    desk.call(["challenges", "65536", "random", "out"], "failed: 65536 is no number of 0 to 65535")
    desk.call(["challenges", "", "random", "out"], "failed:  is no number of 0 to 65535")
    desk.call(["give-up", "record", "large"], "failed: record is no record")
    desk.call(["challenges", 31, "random", "no-folder/out"], "failed: no-folder/out can't be written")
    why = ["no-folder/out.new: No such file or directory"]
    desk.expect("why it can't be written", desk.faults("challenges", "31", "random", "no-folder/out"), why)
    desk.call(["challenges", 31, "random", "/dev/null"], "failed: /dev/null can't be written")
    desk.call(["challenges", 31, "random", "folder"], "failed: folder can't be written")
    desk.put(**{"out.new": b"in the way"})
    desk.call(["challenges", 31, "random", "out"], "failed: out can't be written")
    (desk.folder / "out.new").unlink()
    desk.put(system=frame_of(1, [2, 1], b"\x05"))
    desk.call(["key", "system", "random", "both", "both"], "failed: both can't be written")
    desk.call(["key", "system", "random", "public", "no-folder/secret"], "failed: no-folder/secret can't be written")


def test_flip(desk, rng):
    content = rng.randbytes(50)
    desk.put(file=content)
    for place, bit in ((0, 0), (49, 7), (20, 3)):
        desk.call(["flip", "file", place, bit, "out"], "done", out=flipped(content, place, bit))
    desk.call(["flip", "file", 50, 0, "out"], "failed: file has no byte at that place")
    desk.call(["flip", "file", 0, 8, "out"], "failed: 8 is no bit of a byte")
    desk.call(["flip", "file", 1, 1, "file"], "done", file=flipped(content, 1, 1))


# --- The run in the gate ---


def gate_sign_on():
    return dict(zip(MESSAGES, honest(Lent(Random("the desk"), 3, 1, 20))))


def test_gate_data(desk):
    desk.expect("crates/desk/data", {path.name: path.read_bytes() for path in DATA.iterdir()}, gate_sign_on())
    desk.expect("crates/desk/stdout", (DATA.parent / "stdout").read_text(), "accepted 20\n")


def write_data():
    DATA.mkdir(exist_ok=True)
    for name, frame in gate_sign_on().items():
        (DATA / name).write_bytes(frame)


def tests(rng):
    yield test_help
    yield lambda desk: test_system(desk, rng)
    yield lambda desk: test_key(desk, rng)
    yield lambda desk: test_drawings(desk, rng)
    yield lambda desk: test_sign_on(desk, rng, 64, 37, 31, 2)
    yield lambda desk: test_sign_on(desk, rng, 3, 1, 20, 1)
    yield lambda desk: test_sign_on(desk, rng, 2, 1, 1, 1)
    yield lambda desk: test_refusals(desk, rng)
    yield lambda desk: test_stand_in(desk, rng)
    yield lambda desk: test_show(desk, rng)
    yield test_words
    yield lambda desk: test_files(desk, rng)
    yield lambda desk: test_flip(desk, rng)
    yield test_gate_data


def check():
    runs, wrong = 0, []
    for test in tests(Random("desk")):
        with TemporaryDirectory() as folder:
            desk = Desk(folder)
            test(desk)
            runs += desk.runs
            wrong += desk.wrong
    if wrong:
        raise Failed("\n".join([f"{len(wrong)} differences", *(line[:2000] for line in wrong[:SHOWN])]))
    return f"{runs} commands run, and every file and every line as the model has it"


if __name__ == "__main__":
    write_data()
