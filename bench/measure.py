#!/usr/bin/env python3
"""Prints what cmmc's code takes and what gcc's takes, for each program of this folder: instructions, and seconds under qemu.

Seconds are those of the best run of several, inside one process, from the entry to the return; the processes of cmmc's code
and of gcc's come by turns. Instructions of cmmc's code are the least `--steps` at which `cmmc run` has ended. Those of gcc's
are counted by qemu, one by one, in the programs' own functions.

usage: measure.py [CMMC]      by default the environment's CMMC, else `cmmc` on the path
"""
import os
import shutil
import subprocess
import sys
import tempfile
from pathlib import Path

HERE = Path(__file__).resolve().parent
RUNTIME = HERE.parent / "examples/runtime"
ROUNDS, RUNS = 3, 30
# Instructions have 4 bytes, as cmmc's; a loop stays in the program where gcc knows a function of the C library for it.
GCC = ["riscv64-linux-gnu-gcc", "-std=gnu11", "-march=rv64imafd", "-mabi=lp64d", "-fno-tree-loop-distribute-patterns"]
ROOM = ["--stack=4194304", "--heap=4194304"]

PROGRAMS = [
    ("fib", "fib", "20", "6765"),
    ("tak", "tak", "18,12,6", "7"),
    ("sort", "sort", "1000", "1070152012"),
    ("squares", "squares", "10000", "333283335000"),
    ("qs", "main", "2000", "10338790"),
    ("sieve", "main", "100000", "9592"),
    ("str", "main", "50000", "50021"),
    ("rec", "main", "0", "111364"),
    ("queens", "main", "7", "40"),
    ("mat", "main", "30", "1003"),
    ("list", "main", "5000", "18755000"),
    ("tree", "main", "12", "4595"),
    ("misc", "main", "20000", "66086"),
]


def tool(name):
    found = shutil.which(name)
    if found is None:
        print(f"{name} is missing: nothing was measured")
        sys.exit(2)
    return found


def harness(folder, level):
    """The program of gcc's code, and the addresses between which the functions of the programs lie."""
    objects = []
    for source, options in (("programs", [level]), ("more_programs", [level]), ("harness", ["-O1"])):
        objects.append(f"{folder}/{source}{level}.o")
        subprocess.run([*GCC, *options, "-w", "-c", str(HERE / f"{source}.c"), "-o", objects[-1]], check=True)
    subprocess.run(["riscv64-linux-gnu-gcc", "-static", *objects, "-o", f"{folder}/gcc{level}"], check=True)
    own = {line.split()[-1] for line in listed("nm", *objects[:2]) if " T " in line}
    placed = [line.split() for line in listed("nm", "-S", f"{folder}/gcc{level}") if " T " in line]
    spans = [(int(row[0], 16), int(row[1], 16)) for row in placed if row[-1] in own]
    return f"{folder}/gcc{level}", min(at for at, _ in spans), max(at + size for at, size in spans)


def listed(*words):
    return subprocess.run([f"riscv64-linux-gnu-{words[0]}", *words[1:]], check=True, capture_output=True,
                          text=True).stdout.splitlines()


def timed(words, image, wanted):
    ran = subprocess.run(words, input=image, capture_output=True, text=image is None)
    out, err = (text if isinstance(text, str) else text.decode() for text in (ran.stdout, ran.stderr))
    if set(out.splitlines()) != {f"returned {wanted}"}:
        print(f"{' '.join(words)}: {out}{err}")
        sys.exit(1)
    return float(err.split()[0])


def steps(cmmc, words, image):
    """The least number of instructions at which the run has ended."""

    def has_ended(count):
        ran = subprocess.run([cmmc, "run", *words, f"--steps={count}"], input=image, capture_output=True, check=True)
        return ran.stdout != b"more\n"

    high = 1024
    while not has_ended(high):
        high *= 2
    low = high // 2
    while low < high:
        middle = (low + high) // 2
        low, high = (low, middle) if has_ended(middle) else (middle + 1, high)
    return high


def counted(qemu, program, arguments):
    """The instructions of one run of gcc's code: qemu logs each, where each is translated by itself."""
    path, start, end = program
    words = [qemu, "-singlestep", "-d", "exec,nochain", "-dfilter", f"0x{start:x}..0x{end - 1:x}", path]
    with subprocess.Popen([*words, *arguments], stdout=subprocess.DEVNULL, stderr=subprocess.PIPE) as ran:
        return sum(line.startswith(b"Trace") for line in ran.stderr)


def main():
    qemu = tool("qemu-riscv64")
    tool("riscv64-linux-gnu-gcc")
    tool("make")
    cmmc = tool(sys.argv[1] if len(sys.argv) > 1 else os.environ.get("CMMC", "cmmc"))
    subprocess.run(["make", "-s", "-C", str(RUNTIME)], check=True)
    print("| program | instructions: cmmc | gcc -O1 | gcc -O2 | milliseconds: cmmc | gcc -O1 | gcc -O2 |")
    print("|---|---|---|---|---|---|---|")
    with tempfile.TemporaryDirectory() as folder:
        programs = [harness(folder, "-O1"), harness(folder, "-O2")]
        for name, entry, arguments, wanted in PROGRAMS:
            text = (HERE / f"{name}.cmm").read_bytes()
            image = subprocess.run([cmmc, "compile"], input=text, capture_output=True, check=True).stdout
            words = [entry, f"--args={arguments}", *ROOM]
            by_gcc = [name, str(RUNS), *arguments.split(",")]
            best = [1e9] * 3
            for _ in range(ROUNDS):
                best[0] = min(best[0], timed([qemu, str(RUNTIME / "runtime"), *words, f"--repeat={RUNS}"], image, wanted))
                for i, program in enumerate(programs):
                    best[1 + i] = min(best[1 + i], timed([qemu, program[0], *by_gcc], None, wanted))
            once = [name, "1", *arguments.split(",")]
            instructions = [steps(cmmc, words, image)] + [counted(qemu, program, once) for program in programs]
            print(f"| {name} {arguments} | " + " | ".join(f"{number:,}" for number in instructions) + " | "
                  + " | ".join(f"{1000 * seconds:.2f}" for seconds in best) + " |", flush=True)


main()
