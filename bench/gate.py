#!/usr/bin/env python3
"""What a run of the gate costs: processor minutes of its checks, by crate.

usage: bench/gate.py FILE
       bench/gate.py --table FILE

The first form runs beside `rt ci` until it is stopped: every three seconds it looks in Linux's /proc for processes of the prover,
whichever run they belong to, and keeps in FILE the processor seconds of each. What one takes after the last look is left out. Where
FILE is there, its counts are kept, and new ones go beside them.

The second form prints how many minutes the proofs, the tests and the must-fail edits of each crate took; the check that a crate's
edits begin with counts among them.
"""
import json
import os
import re
import sys
import time
from collections import defaultdict
from pathlib import Path

TICKS = os.sysconf("SC_CLK_TCK")
KINDS = ("proofs", "tests", "edits")


def check_of(process):
    """The crate that a process checks, for what, and its processor seconds so far; nothing of another process."""
    words = (process / "cmdline").read_text().split("\0")
    named = re.search(r"--crate-name (\w+)", " ".join(words))
    if not named or not words[0].endswith("/rattle"):
        return None
    kind = "tests" if "--test" in words else "edits" if "/rt-edit" in os.readlink(process / "cwd") else "proofs"
    # after the command's name in brackets: user and system time, then those of children that have ended
    times = (process / "stat").read_text().rsplit(")", 1)[1].split()[11:15]
    return named[1], kind, sum(map(int, times)) / TICKS


def count(file):
    seconds = json.loads(file.read_text()) if file.exists() else {}
    while True:
        for process in Path("/proc").glob("[0-9]*"):
            try:
                check = check_of(process)
            except OSError:  # it has ended, or is another user's
                continue
            if check:
                crate, kind, took = check
                key = f"{crate} {kind} {process.name}"
                seconds[key] = max(seconds.get(key, 0), took)
        file.write_text(json.dumps(seconds))
        time.sleep(3)


def table(file):
    minutes = defaultdict(lambda: dict.fromkeys(KINDS, 0))
    for key, took in json.loads(file.read_text()).items():
        crate, kind, _ = key.split()
        minutes[crate][kind] += took / 60
    for crate, row in sorted(minutes.items(), key=lambda it: -sum(it[1].values())):
        print(f"{crate:18}{sum(row.values()):7.1f}  ", "  ".join(f"{kind} {row[kind]:5.1f}" for kind in KINDS))
    sums = [sum(row[kind] for row in minutes.values()) for kind in KINDS]
    print(f"{'all':18}{sum(sums):7.1f}  ", "  ".join(f"{kind} {it:5.1f}" for kind, it in zip(KINDS, sums)))


if __name__ == "__main__":
    if sys.argv[1:2] == ["--table"] and len(sys.argv) == 3:
        table(Path(sys.argv[2]))
    elif len(sys.argv) == 2 and not sys.argv[1].startswith("-"):
        count(Path(sys.argv[1]))
    else:
        sys.exit(__doc__)
