#!/usr/bin/env python3
"""How the time and the memory of `lift eval` grow with the numbers of its launch file, and with what a program does with them.

usage: bench/evaluating.py

Evaluates a map over 10^5 and over 10^6 numbers; then arrays that are bound and only read: one that is bound anew for each
number, at 8,000 and at 16,000 numbers, and 250 lets one in another over 10^5; then an array that is used in pieces or
ends: windows of 1,000 numbers over 10^5, and 10^7 numbers in front of ten. Prints the time of each call and the most
memory that it took.
"""
import json
import tempfile
from pathlib import Path

from programs import peak, seconds

HEAD = "size N from 1 to 1048576;\ninput xs: [u32; N];\noutput "
SQUARES = "map(\\x. add(mul(x, x), 1), xs)"
BOUND_EACH_TIME = "map(\\x. let y = xs in x, xs)"
LETS = "let x0 = xs in " + "".join(f"let x{i} = x{i - 1} in " for i in range(1, 250))
CASES = (
    ("a map", SQUARES, 10**5),
    ("a map", SQUARES, 10**6),
    ("an array bound for each number", BOUND_EACH_TIME, 8_000),
    ("an array bound for each number", BOUND_EACH_TIME, 16_000),
    ("250 lets", f"reduce(add, 0, {LETS}x249)", 10**5),
    ("windows of 1,000", "map(\\w. reduce(add, 0, w), slide(1000, 1, pad(0, 999, xs)))", 10**5),
    ("10^7 in front", "fold(\\a x. add(a, x), 0, pad(10000000, 0, xs))", 10),
)


def main():
    with tempfile.TemporaryDirectory() as name:
        folder = Path(name)
        words = ["eval", folder / "p", folder / "l"]
        for case, body, count in CASES:
            (folder / "p").write_text(f"{HEAD}{body}\n")
            numbers = [(i * 2654435761) % 2**32 for i in range(count)]
            (folder / "l").write_text(json.dumps({"sizes": {"N": count}, "inputs": {"xs": numbers}}))
            size = (folder / "l").stat().st_size
            time, memory = seconds(words, 3), peak(words)
            print(f"{case}, {count} numbers, {size} bytes: {time:.3f} s, {memory / 1e6:.1f} MB, {memory / count:.0f} bytes a number")


if __name__ == "__main__":
    main()
