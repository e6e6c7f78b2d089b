#!/usr/bin/env python3
"""What memory `lift run`, `lift eval` and `lift run-stages` take, by cells, by work-items and by kernels.

usage: bench/memory.py

Runs and evaluates two maps that add 1, for a result of 1,000 and of a million numbers: over one input number padded with
zeroes, so that the output's cells are all but one of those in memory; and over as many input numbers, each read from the launch
file. The runs are by 1 and by 65,536 work-items over the launch. Prints the most memory that each call took, from its start to
its end, of the whole process (GNU's time). The first line is a program of one number, which tells what all calls take.

Behind these come kernels in order, 1 to 16, each a map that adds 1 to what the one before made of one number, beside an input
of a million numbers that none of them reads.

The device takes its memory at its start, and none after. Before it the launch file is read as JSON; behind it the text of the
value is made, as in `eval`.

What was seen stands in README.md.
"""
import json
import tempfile
from pathlib import Path

from programs import peak

ITEMS = ((1, 1), (65536, 256))
KERNELS = (1, 4, 16)


def padded(cells):
    """A map over one input number and as many zeroes as are wanted, and its input."""
    return f"input xs: [u32; 1];\noutput map(\\x. add(x, 1), pad({cells - 1}, 0, xs))", [1]


def read(cells):
    """A map over so many input numbers, and these."""
    return f"input xs: [u32; {cells}];\noutput map(\\x. add(x, 1), xs)", [1] * cells


def printed(folder, told, shape, items=ITEMS):
    """Prints the memory of an evaluation and of runs by so many work-items."""
    program, script, launch = folder / "p", folder / "s", folder / "l"
    text, numbers = shape
    program.write_text(text)
    script.write_text("at . to-glb\n")
    peaks = []
    for count, group in items:
        launch.write_text(json.dumps({"global": count, "local": group, "sizes": {}, "inputs": {"xs": numbers}}))
        peaks.append(f"run by {count} {peak(['run', program, script, launch]) / 1e6:.1f} MB")
    print(f"{told}: {', '.join(peaks)}, eval {peak(['eval', program, launch]) / 1e6:.1f} MB", flush=True)


def in_order(kernels):
    """So many maps that add 1, one over another, beside an input of a million numbers, and the script that makes a kernel of
    each."""
    term, lines = "xs", []
    for above in reversed(range(kernels)):
        place = ".".join(["0"] * above) or "."
        term = f"map(\\x. add(x, 1), {term})"
        lines += [f"at {place} to-glb"] + [f"at {place} then"] * (above > 0)
    return f"input xs: [u32; 1];\ninput ys: [u32; {10**6}];\noutput {term}", "\n".join(lines) + "\n"


def printed_in_order(folder):
    """Prints the memory of runs of so many kernels in order."""
    program, script, launch = folder / "p", folder / "s", folder / "l"
    peaks = []
    for kernels in KERNELS:
        for file, text in zip((program, script), in_order(kernels)):
            file.write_text(text)
        launches = [{"global": 1, "local": 1}] * kernels
        launch.write_text(json.dumps({"launches": launches, "sizes": {}, "inputs": {"xs": [1], "ys": [1] * 10**6}}))
        peaks.append(f"{kernels} {peak(['run-stages', program, script, launch]) / 1e6:.1f} MB")
    print(f"{10**6} numbers that no kernel reads, kernels in order: {', '.join(peaks)}", flush=True)


def main():
    with tempfile.TemporaryDirectory() as name:
        folder = Path(name)
        printed(folder, "one input and one output cell", padded(1), ITEMS[:1])
        for cells in (1000, 10**6):
            printed(folder, f"one input cell, {cells} output cells", padded(cells))
            printed(folder, f"{cells} input cells, {cells} output cells", read(cells))
        printed_in_order(folder)


if __name__ == "__main__":
    main()
