#!/usr/bin/env python3
"""How long `lift compile` takes for each example, beside clang's check of the kernel's syntax.

usage: bench/against_clang.py

Takes the least of ten times of each, in milliseconds: `lift compile PROGRAM SCRIPT`, or `lift stages` where the script makes kernels
in order, and `clang -fsyntax-only` on the text that is stored beside the script.

Taken twice, on a busy machine (Debian's clang 14): 0.5 to 1.1 ms against 31 to 66, 44 to 107 times as long, but for one example in
the first of the two, which took 3.8 ms against 35 (nine times) and 0.6 in the second. A quiet machine has not been tried.
"""
import sys
from pathlib import Path

from programs import seconds

EXAMPLES = Path(__file__).resolve().parent.parent / "examples"
sys.path.append(str(EXAMPLES))

from pages import commands
CLANG = ["clang", "-fsyntax-only", "-x", "cl", "-cl-std=CL1.2"]


def main():
    for kernel in sorted(EXAMPLES.glob("*/*.cl")):
        script = kernel.with_suffix(".txt")
        compiles, _ = commands(script)
        lift = 1e3 * seconds([compiles, kernel.parent / "program.lift", script], 10)
        clang = 1e3 * seconds([*CLANG[1:], kernel], 10, CLANG[0])
        print(f"{kernel.relative_to(EXAMPLES)}: {lift:.2f} ms, clang {clang:.1f} ms, {clang / lift:.0f} times as long")


if __name__ == "__main__":
    main()
