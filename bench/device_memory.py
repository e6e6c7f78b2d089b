#!/usr/bin/env python3
"""What memory the device takes for local arrays, by their cells and by the groups that use any.

usage: bench/device_memory.py

Runs two kernels by 65,536 groups of one work-item each. One has a local array of 8,192 cells, the most that local memory holds; the
other 580 local arrays of one cell each. Of the groups two use their arrays, and of those of one cell also all: a group's number is
the number of the piece that it takes. So there are 537 million cells, and 38 million. Prints the most memory that each call took,
of the whole process (GNU's time), and its time.

The device takes its memory at its start, and writes of cells and marks as many as come before the last that is used.

What was seen stands in README.md.
"""
import json
import tempfile
from pathlib import Path

from programs import peak, seconds

GROUPS = 65536
ARRAYS = 580


def long_array(pieces):
    """A map over pieces of 8,192 numbers, each of which is copied to a local array; its script; and how many numbers it takes."""
    numbers = 8192 * pieces
    script = ["at . split-map 8192", "at 0.1.0 local-copy", "at 0.1 to-lcl", "at 0 to-wrg"]
    return f"input xs: [u32; {numbers}];\noutput map(\\x. add(x, 1), xs)", script, numbers


def short_arrays(pieces):
    """A map over pieces of one number, each of which is copied to 580 local arrays: four for each let but the first."""
    lets = ARRAYS // 4
    copies = "".join(f"let b{it} = zip(zip(a, a), zip(a, a)) in " for it in range(lets))
    body = f"let a = map(\\x. x, r) in {copies}map(\\p. add(first(first(p)), 1), b0)"
    script = ["at 0.1.0 to-lcl", "at 0.1.0 local", "at 0.1 let-inline", f"at 0{'.1' * (lets + 1)} to-lcl", "at 0 to-wrg"]
    return f"input xs: [u32; {pieces}];\noutput join(map(\\r. {body}, split(1, xs)))", script, pieces


def printed(folder, told, shape):
    """Prints the memory and the time of a run by 65,536 groups of one work-item."""
    program, script, launch = folder / "p", folder / "s", folder / "l"
    text, steps, numbers = shape
    program.write_text(text)
    script.write_text("".join(f"{step}\n" for step in steps))
    launch.write_text(json.dumps({"global": GROUPS, "local": 1, "sizes": {}, "inputs": {"xs": [1] * numbers}}))
    words = ["run", program, script, launch]
    print(f"{told}: {peak(words) / 1e6:.1f} MB, {seconds(words):.2f} s", flush=True)


def main():
    with tempfile.TemporaryDirectory() as name:
        folder = Path(name)
        printed(folder, "a local array of 8,192 cells, of which 2 groups use any", long_array(2))
        printed(folder, "580 local arrays of one cell, of which 2 groups use any", short_arrays(2))
        printed(folder, "580 local arrays of one cell, which all groups use", short_arrays(GROUPS))


if __name__ == "__main__":
    main()
