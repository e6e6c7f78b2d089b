#!/usr/bin/env python3
"""How the work of `lift steps` grows with the steps and with the term's nodes.

usage: bench/steps.py

Counts the instructions (valgrind --tool=callgrind) of `lift steps` with 64, 128 and 256 steps, `at 0 copy` and `at . fuse-map`
by turns, on a map whose body is a wide tree of sums, of 1,024 and of 3,840 nodes (each pair of steps adds two nodes, and a term
may have 4,096). Prints the instructions less those of an empty script, and per step and node. Each step copies, types and
counts the whole term, and each term is written out: the work of a step grows with the nodes, and not with the steps before it.

Counted once: 3,800, 3,900 and 4,100 instructions a step and node from 1,024 nodes on (which grow by a quarter over 256 steps), and
3,200, 3,500 and 3,500 from 3,840 on.
"""
import tempfile
from pathlib import Path

from programs import HEAD, instructions, wide


def of_steps(folder, steps):
    (folder / "s").write_text("".join("at . fuse-map\n" if k % 2 else "at 0 copy\n" for k in range(steps)))
    count, lines = instructions(folder, ["steps", folder / "p", folder / "s"])
    assert lines.count("\n") == steps + 1
    return count


def main():
    with tempfile.TemporaryDirectory() as name:
        folder = Path(name)
        for nodes in (1024, 3840):
            (folder / "p").write_text(HEAD + f"map(\\x. {wide(nodes - 2)}, xs)")
            base = of_steps(folder, 0)
            print(f"{nodes} nodes: an empty script takes {base / 1e6:.0f} million instructions")
            for steps in (64, 128, 256):
                more = of_steps(folder, steps) - base
                print(f"  {steps} steps: {more / 1e6:.0f} million more, {more / steps / nodes:.0f} a step and node")


if __name__ == "__main__":
    main()
