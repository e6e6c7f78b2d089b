#!/usr/bin/env python3
"""What the largest scripts and types cost: time and the most memory of one call, beside what is wanted of it.

usage: bench/scripts.py

- A let's value of 1,020 leaves is put in place of 1,020 mentions (`let-inline`): the term would have 2,080,799 nodes, and is
  refused by their number (10).
- 256 steps, `at 0 copy` and `at . fuse-map` by turns, over a term of nearly 4,000 nodes: by `steps`, which writes each term, and by
  `compile`, which wants the last alone. A third script's last step is refused, and so is nothing written.
- The same steps over a small term, where the one input's length is a sum of 26,000 parts.
- `let a1 = pair(x, x) in let a2 = pair(a1, a1) in ..`, 20 lets, in each command: the type of each is twice as large.

Each line has the least processor time of three calls, and the most memory that one took, both as GNU's time tells them.
"""
import json
import subprocess
import tempfile
from pathlib import Path

from programs import HEAD, LIFT, wide

PAIRS = "at 0 copy\nat . fuse-map\n" * 127
STEPS = PAIRS + "at 0 copy\nat . fuse-map\n"


def call(words, status):
    """The processor time of one call in ms, and the most memory that it took in MB."""
    done = subprocess.run(["/usr/bin/time", "-q", "-f", "%U %S %M", LIFT, *words], stdout=subprocess.DEVNULL, stderr=subprocess.PIPE, text=True)
    assert done.returncode == status, (words, done.returncode, done.stderr[-300:])
    user, system, memory = map(float, done.stderr.split()[-3:])
    return (user + system) * 1000, memory / 1000


def told(what, wanted, words, status=0):
    calls = [call(words, status) for _ in range(3)]
    took, memory = min(it[0] for it in calls), max(it[1] for it in calls)
    print(f"{what}: {took:.0f} ms, {memory:.0f} MB ({wanted})")


def inlined(folder):
    (folder / "p").write_text(HEAD + f"map(\\x. let y = {wide(2039)} in {wide(2039).replace('7', 'y')}, xs)")
    (folder / "s").write_text("at 1 let-inline\n")
    told("let-inline, 1,020 leaves at 1,020 mentions", "as a refusal's", ["steps", folder / "p", folder / "s"], 10)


def large_terms(folder):
    (folder / "p").write_text(HEAD + f"map(\\x. {wide(3740)}, xs)")
    (folder / "s").write_text(STEPS)
    (folder / "l").write_text(PAIRS + "at . to-seq\n")
    (folder / "r").write_text(PAIRS + "at 0 copy\nat . join-split\n")
    told("256 steps, steps", "at most 40 MB", ["steps", folder / "p", folder / "s"])
    told("256 steps, compile", "", ["compile", folder / "p", folder / "l"])
    told("256 steps, of which the last is refused", "at most 40 MB", ["steps", folder / "p", folder / "r"], 9)


def long_length(folder):
    (folder / "p").write_text(f"size N from 1 to 1000;\ninput xs: [u32; N{'+N-N' * 13000}];\noutput map(\\x. x, xs)")
    (folder / "s").write_text(STEPS)
    told("256 steps over a length of 26,000 parts, steps", "at most 300 ms", ["steps", folder / "p", folder / "s"])
    (folder / "s").write_text("")
    told("  no step", "", ["steps", folder / "p", folder / "s"])


def pairs(folder):
    lets = "".join(f"let a{k} = pair({x}, {x}) in " for k, x in enumerate(["x", *(f"a{k}" for k in range(19))]))
    (folder / "p").write_text(HEAD + f"map(\\x. {lets}{'first(' * 20}a19{')' * 20}, xs)")
    (folder / "s").write_text("at . to-seq\n")
    (folder / "l").write_text(json.dumps({"global": 1, "local": 1, "sizes": {"N": 2}, "inputs": {"xs": [1, 2]}, "schedule": []}))
    for command in ("steps", "compile", "stages"):
        told(f"20 pairs of one another, {command}", "at most 50 ms and 50 MB", [command, folder / "p", folder / "s"])
    told("20 pairs of one another, eval", "at most 50 ms and 50 MB", ["eval", folder / "p", folder / "l"])
    told("20 pairs of one another, run", "at most 50 ms and 50 MB", ["run", folder / "p", folder / "s", folder / "l"])


def main():
    with tempfile.TemporaryDirectory() as name:
        for case in (inlined, large_terms, long_length, pairs):
            case(Path(name))


if __name__ == "__main__":
    main()
