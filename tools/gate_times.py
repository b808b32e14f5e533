#!/usr/bin/env python3
"""Writes down what processor time a gate takes, and prints it by crate.

    python3 tools/gate_times.py watch PID LOG
    python3 tools/gate_times.py [--layers] LOG

`rt ci` itself says no times. `watch` follows the processes below PID, which is that of a running `rt ci`, each fifth of a second
until it has ended. Of each process that has ended LOG has one line: the seconds of the processor that it took itself, `edit`
where it tried an edit and else `proof`, the crate, and its program; blanks are between them. A process that was there for less
than a fifth of a second may be missing.

The second form prints a table of processor minutes in the order of crates.txt: of proofs, with programs, and of edits. All
lines of a crate are summed up. With --layers each heading of crates.txt is one row. A crate of which LOG has nothing, since it
was kept, has 0.
"""

import collections
import os
import re
import sys
import time

sys.dont_write_bytecode = True  # no folder of compiled Python beside the tools
from sizes import by_crate, by_layer, table

TICK = os.sysconf("SC_CLK_TCK")


def processes():
    """Each process by its number: its parent, when it began, and the seconds that it took."""
    found = {}
    for pid in filter(str.isdigit, os.listdir("/proc")):
        try:
            with open(f"/proc/{pid}/stat") as f:
                fields = f.read().rsplit(")", 1)[1].split()
        except OSError:
            continue
        found[int(pid)] = (int(fields[1]), fields[19], (int(fields[11]) + int(fields[12])) / TICK)
    return found


def described(pid, before):
    """The kind, the crate and the program of a process; what it, or its parent, had before where it does not say."""
    try:
        at = os.readlink(f"/proc/{pid}/cwd")
        words = open(f"/proc/{pid}/cmdline", "rb").read().decode(errors="replace").split("\0")
    except OSError:
        return before
    if not words[0]:
        return before
    named = re.search(r"/crates/(\w+)", at)
    crate = named.group(1) if named else before[1]
    if "--crate-name" in words[:-1]:
        crate = words[words.index("--crate-name") + 1]
    edit = "rt-edit" in at or any("rt-edit" in word for word in words)
    return ("edit" if edit else before[0], crate, os.path.basename(words[0]))


def watch(root, log):
    now = processes()
    if root not in now:
        sys.exit(f"{root} is no process")
    below = {root: (("proof", "-", "rt"), *now[root][1:])}
    with open(log, "a", encoding="utf-8") as out:
        while True:
            now = processes()
            ended = root not in now
            for pid, (_, start, seconds) in list(below.items()):
                if ended or pid not in now or now[pid][1] != start:
                    kind, crate, program = below.pop(pid)[0]
                    out.write(f"{seconds:.2f} {kind} {crate} {program}\n")
            out.flush()
            if ended:
                return
            inside = {pid: what for pid, (what, _, _) in below.items()}
            for pid in sorted(now, key=lambda it: int(now[it][1])):
                parent, start, seconds = now[pid]
                if pid in below or parent in inside:
                    what = inside[pid] if pid in below else inside[parent]
                    inside[pid] = what if pid == root else described(pid, what)
                    below[pid] = (inside[pid], start, seconds)
            time.sleep(0.2)


def times(log):
    found = collections.defaultdict(lambda: [0.0, 0.0])
    for line in open(log, encoding="utf-8"):
        seconds, kind, crate = line.split()[:3]
        found[crate][kind == "edit"] += float(seconds) / 60
    return found


if __name__ == "__main__":
    words = [word for word in sys.argv[1:] if word != "--layers"]
    if len(words) == 3 and words[0] == "watch":
        watch(int(words[1]), words[2])
    elif len(words) == 1:
        found = times(words[0])
        rows = (by_layer if "--layers" in sys.argv else by_crate)(lambda crate: tuple(found[crate]))
        table("layer" if "--layers" in sys.argv else "crate", ["proofs, programs", "edits"], rows, lambda n: f"{n:.1f}")
        print(f"\nThe gate itself, for no crate: {sum(found['-']):.1f}.")
    else:
        sys.exit(__doc__)
