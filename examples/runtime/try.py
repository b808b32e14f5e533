#!/usr/bin/env python3
"""Tries the runtime against `cmmc run`.

Each text of examples/ and bench/ is compiled, and each of two tables of rows. `cmmc run` runs the image under `none` and `every`.
The runtime runs it under qemu-riscv64; it collects at no service that it need not (`none`), at each one (`every`), and at those
that a timer brings (`timer`). What differs from what is wanted is printed.

usage: try.py [--brief] [--seconds=N] [CMMC]

CMMC is the program to try against: by default the environment's CMMC, else `cmmc` on the path. `--seconds` is how long this may
take at most; what is left then is not tried. `--brief` is for the end of a gate: one line, and status 0, where nothing differs,
and also where a tool is missing. Else that has status 2. The status is 1 where something differs.
"""
import argparse
import os
import re
import shutil
import signal
import subprocess
import sys
import tempfile
from pathlib import Path

HERE = Path(__file__).resolve().parent
ROOT = HERE.parent.parent
CMMC_MOVES = ["none", "every"]
MOVES = [*CMMC_MOVES, "timer:50"]
SECONDS = 120  # of one run, at most

# What is wanted of each text of examples/: the words of a run, and the lines that it prints.
EXAMPLES = {
    "add3.cmm": [("add3 --args=3,4", "returned 10")],
    "alloc_try.cmm": [
        ("keeps --args=-1", "returned 11"),
        ("keeps --args=1", "returned 1"),
        ("risky --args=-1", "raised 3"),
    ],
    "arrays.cmm": [("squares --args=5", "returned 30"), ("fibonacci --args=7", "returned 13")],
    "bits.cmm": [
        ("low_bits --args=1023", "returned 255"),
        ("distance --args=7,5", "returned 2"),
        ("clear_low_bits --args=1023", "returned 768"),
        ("answer", "returned 42"),
    ],
    "catch.cmm": [("collatz --args=27", "returned 111")],
    "checkbound.cmm": [
        ("at --args=1", "returned 10"),
        ("at --args=3", "raised 268435456"),
        ("at_or --args=2,0", "returned 50"),
        ("at_or --args=-1,0", "returned 0"),
    ],
    "data.cmm": [("second", "returned 77"), ("at --args=@pair", "returned 7")],
    "extcall.cmm": [
        ("twice --args=1 --answers=20,22", "call read 7\ncall read 1\nreturned 42"),
        ("twice --args=1 --answers=20", "call read 7\nasks read 1"),
    ],
    "frame_call.cmm": [
        ("kept --args=5 --answers=1,9", "call collect 5\nreturned 11"),
        ("kept --args=5 --answers=0,9", "call collect 5\nreturned 11"),
        ("kept --args=5 --answers=0", "asks collect 5"),
    ],
    "list.cmm": [("reversed --args=11", "returned 108643"), ("count --args=1,1", "returned 1"), ("count --args=5,1", "returned block 1")],
    "loop.cmm": [("sum_to --args=10", "returned 55")],
    "moved.cmm": [
        ("inner --args=5 --answers=0,1", "call collect 5\nreturned 11"),
        ("inner --args=5 --answers=1,3", "call collect 5\nraised 3"),
    ],
    "quotient.cmm": [("quotient --args=-7,2", "returned -3")],
    "switch.cmm": [("days --args=2", "returned 28"), ("days --args=0", "returned 31"), ("days --args=11", "returned 30")],
}

# The texts of examples/ that `compile` refuses, and why.
REFUSED = {"fault.cmm": "F20 AddrLive at 93, bound at 33, frame point at 48"}

# The same of bench/. Lists and trees are short, since under `every` all live blocks are copied at each allocation.
BENCHMARKS = {
    "fib.cmm": [("fib --args=20", "returned 6765")],
    "tak.cmm": [("tak --args=18,12,6", "returned 7")],
    "sort.cmm": [("sort --args=1000", "returned 1070152012")],
    "squares.cmm": [("squares --args=10000", "returned 333283335000")],
    "qs.cmm": [("main --args=2000", "returned 10338790")],
    "sieve.cmm": [("main --args=100000", "returned 9592")],
    "str.cmm": [("main --args=50000", "returned 50021")],
    "rec.cmm": [("main --args=0", "returned 111364")],
    "queens.cmm": [("main --args=7", "returned 40")],
    "mat.cmm": [("main --args=30", "returned 1003")],
    "list.cmm": [("main --args=300", "returned 67800")],
    "tree.cmm": [("main --args=7", "returned 627")],
    "misc.cmm": [("main --args=20000", "returned 66086")],
}

# Programs that allocate far more than their heap holds, and hold little of it at a time.
KEEP = b"""
(function "boom" (n:int) (letmut i int n (while (> i 0) (alloc 1024 1) (assign i (- i 1))) (raise 3)))
(function "keep" (n:int) (let p (alloc 2048 85 11) (try (app "boom" n int) with e (load val (+a p 8)))))
"""
ROUNDS = b"""
(function "list" (n:int)
  (letmut (l val 1 i int n) (while (> i 0) (assign l (alloc 2048 (+ (<< i 1) 1) l)) (assign i (- i 1))) l))
(function "sum" (l:val s:int) (if (== l 1) s (app "sum" (load val (+a l 8)) (+ s (>>s (load int l) 1)) int)))
(function "rounds" (n:int)
  (letmut (s int 0 i int n)
    (while (> i 0) (assign s (+ s (app "sum" (app "list" 100 val) 0 int))) (assign i (- i 1)))
    s))
"""
SMALL_HEAPS = [
    (KEEP, "keep --args=1000000 --heap=32", ["none", "timer:50"], "returned 11\n"),
    (KEEP, "keep --args=20000 --heap=32", ["every"], "returned 11\n"),
    (ROUNDS, "rounds --args=20000 --heap=2400", ["none", "timer:50"], "returned 101000000\n"),
    (ROUNDS, "rounds --args=100 --heap=2400", ["every"], "returned 505000\n"),
]

# What no image, unknown names and so on give: the words, what is changed in the image, the status, the line.
BAD_INPUT = [
    ("keeps --args=1 --args=2", None, 2, "runtime: U1 Words"),
    ("keeps --args=1x", None, 2, "runtime: U2 ValueText"),
    ("keeps --args=1 --heap=8", None, 2, "runtime: U2 ValueText"),
    ("none --args=1", None, 2, "runtime: U3 UnknownEntry"),
    ("keeps", None, 2, "runtime: U4 ArgumentUnfit"),
    ("keeps --args=@nowhere", None, 2, "runtime: U4 ArgumentUnfit"),
    ("keeps --args=1", lambda image: b"", 4, "runtime: G1 Truncated at 0"),
    ("keeps --args=1", lambda image: b"no image" + image[8:], 4, "runtime: G2 Magic at 0"),
    ("keeps --args=1", lambda image: image[:8] + b"\3" + image[9:], 4, "runtime: G3 Version at 8"),
    ("keeps --args=1", lambda image: image[:-1], 4, "runtime: G1 Truncated at "),
    ("keeps --args=1", lambda image: image + b"\0", 4, "runtime: G6 Trailing at "),
]


def section(name, body):
    return name + len(body).to_bytes(4, "little") + body


def numbers(*of):
    return b"".join(number.to_bytes(4, "little") for number in of)


# An image of version 1, made by hand: the function "m" asks for memory while a0, which its descriptor names, holds 2.
BAD_ROOT = (
    b"CMMRV64\n" + numbers(1)
    + section(b"FUNC", numbers(1) + b"\1\0m" + numbers(16, 8, 16) + b"\0\3")
    + section(b"CODE", numbers(0x00000393, 0x00000073, 0x00100393, 0x00000073, 0xFF010113, 0x00113423, 0x00200513, 0xFF0D0D13,
                               0x01000293, 0x00300393, 0x00000073, 0x00100073))
    + section(b"DATA", bytes(8)) + section(b"SYMS", numbers(0)) + section(b"ROOT", numbers(0)) + section(b"EXTC", numbers(0))
    + section(b"DESC", numbers(1, 44) + b"\x10\0" + b"\1\0" + b"\x15\0")
)


class TimeUp(Exception):
    """The time that was given is over."""


def time_up(*_):
    raise TimeUp


def lacking(cmmc):
    """What is missing of all that is needed, in some words, or None."""
    for name in ("qemu-riscv64", "riscv64-linux-gnu-gcc", "make", cmmc):
        if shutil.which(name) is None:
            return f"{name} is missing"
    with tempfile.TemporaryDirectory() as folder:
        text = b"#include <stdio.h>\nint main(void) { return puts(\"\") < 0; }\n"
        make = ["riscv64-linux-gnu-gcc", "-static", "-x", "c", "-", "-o", f"{folder}/probe"]
        if outcome(make, text)[0] != 0 or outcome(["qemu-riscv64", f"{folder}/probe"], b"")[0] != 0:
            return "riscv64-linux-gnu-gcc makes no program that qemu-riscv64 runs, maybe for want of a C library"
    return None


def outcome(words, given):
    """The status, and what was printed."""
    try:
        ran = subprocess.run(words, input=given, capture_output=True, timeout=SECONDS)
    except subprocess.TimeoutExpired:
        return (-1, "no end")
    return (ran.returncode, (ran.stdout + ran.stderr).decode(errors="replace"))


class Trial:
    """What is tried against what, and what came of it."""

    def __init__(self, cmmc, brief):
        self.cmmc = cmmc
        self.brief = brief
        self.compiled = {}
        self.runs = 0
        self.differ = 0

    def say(self, line):
        if not self.brief:
            print(line, flush=True)

    def differs(self, where, wanted, got):
        self.differ += 1
        print(f"{where}\n  wanted {wanted}\n  got    {got}", flush=True)

    def image(self, text):
        """The image of a text that has no fault."""
        if text not in self.compiled:
            ran = subprocess.run([self.cmmc, "compile"], input=text, capture_output=True)
            if ran.returncode != 0:
                self.differs(f"compile of {text[:60]}", "an image", ran.stderr)
            self.compiled[text] = ran.stdout
        return self.compiled[text]

    def by_runtime(self, words, image, moves="none"):
        self.runs += 1
        return outcome(["qemu-riscv64", str(HERE / "runtime"), *words, f"--moves={moves}"], image)

    def by_cmmc(self, words, image, moves="none"):
        return outcome([self.cmmc, "run", *words, f"--moves={moves}"], image)

    def compare(self, name, words, image, wanted):
        """One entry under all moves of both; each outcome is one of those wanted."""
        ran = [("cmmc run", moves, self.by_cmmc(words, image, moves)) for moves in CMMC_MOVES]
        ran += [("runtime", moves, self.by_runtime(words, image, moves)) for moves in MOVES]
        for program, moves, got in ran:
            if got not in wanted:
                self.differs(f"{name}: {program} {' '.join(words)} --moves={moves}", sorted(wanted), got)

    def folder(self, folder, runs, refused):
        """The texts of a folder. Each of them has a row, and each row a text."""
        texts = {path.name: path.read_bytes() for path in sorted((ROOT / folder).glob("*.cmm"))}
        for file in sorted(texts.keys() ^ (runs.keys() | refused.keys())):
            self.differs(f"{folder}/{file}", "a text, and a row for it in try.py", "one of them alone")
        entries, before = 0, self.runs
        for file, text in texts.items():
            if file in refused:
                got, wanted = outcome([self.cmmc, "compile"], text), (3, f"cmmc: {refused[file]}\n")
                if got != wanted:
                    self.differs(f"{folder}/{file}: compile", wanted, got)
            for line, printed in runs.get(file, []):
                entries += 1
                self.compare(f"{folder}/{file}", line.split(), self.image(text), {(0, printed + "\n")})
        self.say(f"{folder}: {len(texts)} texts, {len(refused)} of them refused, {entries} entries, {self.runs - before} runs")

    def table(self, name):
        """Texts of a table of rows. What is wanted stands there; it was made apart from `cmmc`."""
        entries, counted, small, before = {}, 0, 0, self.runs
        for given, words, _, wanted in rows_of(name, "image "):
            if counts_instructions(words):
                counted += 1
            else:
                entries.setdefault((given, words), set()).add(wanted)
        for (given, words), wanted in entries.items():
            image = self.image(given.encode())
            if any(word.startswith("--heap=") for word in words):
                # `cmmc run` keeps dead blocks, and the runtime frees them, so it may end as in an ample heap
                small += 1
                ample = [word for word in words if not word.startswith("--heap=")] + ["--heap=67108864"]
                wanted |= {self.by_cmmc(words, image, moves) for moves in CMMC_MOVES} | {self.by_cmmc(ample, image)}
            elif len(wanted) != 1:
                self.differs(f"{name}: {' '.join(words)}", "one outcome", wanted)
            self.compare(name, words, image, wanted)
        self.say(f"table `{name}`: {len(set(given for given, _ in entries))} texts, {len(entries)} entries, {self.runs - before} runs; "
                 f"{small} entries may end in heap out or as in an ample heap; left out: rows that count instructions, {counted}")

    def images(self):
        """Images of both versions, made by hand. Where blocks lie is the runtime's own matter: addresses of the heap are not
        compared."""
        versions, left = {1: 0, 2: 0}, 0
        for given, words, moves, (status, wanted) in sorted(set(rows_of("images", "bytes "))):
            if moves not in CMMC_MOVES:
                continue
            if counts_instructions(words) or wanted.endswith("heap out\n"):
                left += 1
                continue
            image = bytes.fromhex(given)
            got = self.by_runtime(words, image, moves)
            if (got[0], without_places(got[1])) != (status, without_places(wanted.replace("cmmc:", "runtime:"))):
                self.differs(f"images: {' '.join(words)} --moves={moves}", (status, wanted), got)
            versions[image[8]] += 1
        self.say(f"table `images`: {versions[1]} runs of images of version 1, {versions[2]} of version 2; "
                 f"left out: {left} that count instructions or run out of a heap that keeps dead blocks")

    def small_heaps(self):
        """What the collector frees is used again: the blocks of these runs never fit their heaps together."""
        before = self.runs
        for text, line, all_moves, wanted in SMALL_HEAPS:
            image, words = self.image(text), line.split()
            if self.by_cmmc(words, image, "every") != (0, "heap out\n"):
                self.differs(f"small heaps: cmmc run {line}", "heap out", "heap enough")
            for moves in all_moves:
                got = self.by_runtime(words, image, moves)
                if got != (0, wanted):
                    self.differs(f"small heaps: {line} --moves={moves}", (0, wanted), got)
        self.say(f"small heaps: {self.runs - before} runs that `cmmc run` ends in heap out")

    def bad_input(self):
        """Each is one line and a status."""
        image = self.image((ROOT / "examples/alloc_try.cmm").read_bytes())
        cases = [(line, image if change is None else change(image), status, wanted) for line, change, status, wanted in BAD_INPUT]
        frame_call = self.image((ROOT / "examples/frame_call.cmm").read_bytes())
        deep = self.image((ROOT / "bench/list.cmm").read_bytes())
        cases += [
            ("m", BAD_ROOT, 0, "stopped BadRoot"),
            ("kept --args=5 --answers=0,9 --heap=0", frame_call, 0, "heap out"),
            ("main --args=5000 --stack=64", deep, 0, "stack out"),
        ]
        for line, given, status, wanted in cases:
            got = self.by_runtime(line.split(), given)
            if got[0] != status or not got[1].startswith(wanted) or got[1].count("\n") != 1:
                self.differs(f"bad input: {line}", (status, wanted), got)
        self.say(f"bad input: {len(cases)} cases")

    def document(self):
        """The C that docs/runtime.md shows stands so in the sources."""
        sources = "".join(path.read_text() for path in sorted(HERE.glob("*.[ch]")) + [HERE / "Makefile"])
        shown = re.findall(r"^```(?:c|make)\n(.*?)^```$", (ROOT / "docs/runtime.md").read_text(), re.MULTILINE | re.DOTALL)
        for piece in shown:
            if piece not in sources:
                self.differs("docs/runtime.md", "a piece of the sources", piece)
        self.say(f"docs/runtime.md: {len(shown)} pieces of C")

    def changed_images(self):
        """Each byte of an image is changed in turn, and the image is cut before it."""
        image = self.image((ROOT / "examples/frame_call.cmm").read_bytes())
        words, before = ["kept", "--args=5", "--answers=0,9"], self.runs
        for at in range(len(image)):
            for changed in (image[:at], image[:at] + bytes([image[at] ^ 1]) + image[at + 1:]):
                status, wanted = self.by_cmmc(words, changed)
                if status == 0:  # still an image
                    continue
                got = self.by_runtime(words, changed)
                if got != (status, wanted.replace("cmmc:", "runtime:")):
                    self.differs(f"image changed at {at}", (status, wanted), got)
        self.say(f"changed images: {self.runs - before} that `cmmc run` refuses")

    def all(self):
        self.document()
        self.folder("examples", EXAMPLES, REFUSED)
        self.bad_input()
        self.small_heaps()
        self.folder("bench", BENCHMARKS, {})
        self.table("compiled")
        self.images()
        self.table("operators")
        self.changed_images()


def rows_of(table, kind):
    """The rows of a table that run an image: what it is made of, the words, the moves, and what is wanted."""
    rows, answers = (lines_of(file, table) for file in ("stdin", "stdout"))
    given = None
    for row, answer in zip(rows.splitlines(), re.split("^status ", answers, flags=re.MULTILINE)[1:], strict=True):
        words, read = row.split(" | ", 1)
        given = given if read == "same" else read
        if words.startswith("run ") and given.startswith(kind):
            status, printed = answer.split("\n", 1)
            yield given.removeprefix(kind), *words_of(words), (int(status), printed)


def lines_of(file, table):
    """The lines of a table. In both files a line `= NAME` begins one."""
    text = (ROOT / "crates/rows_commands" / file).read_text()
    return re.search(rf"^= {table}\n(.*?)(?=^= |\Z)", text, re.MULTILINE | re.DOTALL)[1]


def words_of(line):
    words = line.split()[1:]
    moves = [word.removeprefix("--moves=") for word in words if word.startswith("--moves=")]
    return tuple(word for word in words if not word.startswith("--moves=")), (moves or ["none"])[0]


def counts_instructions(words):
    return any(word.startswith("--steps=") for word in words)


def without_places(text):
    """The text with a star for each number that is an address of the heap's halves or of the young area."""
    return re.sub(r"\b\d{9}\b", lambda number: "*" if 0x30000000 <= int(number[0]) <= 0x38010000 else number[0], text)


def main():
    words = argparse.ArgumentParser()
    words.add_argument("--brief", action="store_true")
    words.add_argument("--seconds", type=int, default=0)
    words.add_argument("cmmc", nargs="?", default=os.environ.get("CMMC", "cmmc"))
    given = words.parse_args()
    missing = lacking(given.cmmc)
    if missing:
        print(f"examples/runtime: {missing}: nothing was tried")
        return 0 if given.brief else 2
    signal.signal(signal.SIGALRM, time_up)
    signal.alarm(given.seconds)
    trial, end = Trial(shutil.which(given.cmmc), given.brief), ""
    try:
        subprocess.run(["make", "-s", "-C", str(HERE)], check=True)
        trial.all()
    except TimeUp:
        end = f"; {given.seconds} seconds are over, and the rest was not tried"
    found = f"{trial.differ} differ" if trial.differ else "nothing differs"
    print(f"examples/runtime: {trial.runs} runs under qemu-riscv64, {found}{end}")
    return int(trial.differ != 0)


if __name__ == "__main__":
    sys.exit(main())
