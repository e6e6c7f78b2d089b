#!/usr/bin/env python3
"""What the largest launch files cost `lift eval`: the time and the most memory of one call.

usage: bench/launch_files.py

Files of 16 MB, the most that a launch file may have:

- two million lists `[[[1]]]` that the program takes as its input, and the same beside an input of two numbers, where nobody asks
  for them;
- two million objects `{"a":1}` that nobody asks for;
- 2.4 million numbers, as the input.

Each line has the least processor time of three calls, and the most memory that one took, both as GNU's time tells them. What
nobody asks for is checked and left out, so the second line and the third are what the file's bytes take.
"""
import subprocess
import tempfile
from pathlib import Path

from programs import LIFT

MOST = 16_777_216
SMALL = "input xs: [u32; 2];\noutput map(\\x. x, xs)"


def file_of(inputs, beside=""):
    """A launch file with this input, and what nobody asks for."""
    return f'{{"global":1,"local":1,"sizes":{{}},"inputs":{{"xs":{inputs}}},"schedule":[]{beside}}}'


def many(item):
    """So many of these in a list as a launch file has room for, and how many."""
    count = (MOST - 200) // (len(item) + 1)
    return "[" + ",".join([item] * count) + "]", count


def told(folder, what, program, launch):
    (folder / "p").write_text(program)
    (folder / "l").write_text(launch)
    words = ["/usr/bin/time", "-q", "-f", "%U %S %M", LIFT, "eval", folder / "p", folder / "l"]
    calls = []
    for _ in range(3):
        done = subprocess.run(words, stdout=subprocess.DEVNULL, stderr=subprocess.PIPE, text=True, check=True)
        calls.append([float(it) for it in done.stderr.split()[-3:]])
    took, memory = min(it[0] + it[1] for it in calls), max(it[2] for it in calls)
    print(f"{what}: {took * 1000:.0f} ms, {memory / 1000:.0f} MB")


def main():
    with tempfile.TemporaryDirectory() as name:
        folder = Path(name)
        lists, count = many("[[[1]]]")
        deep = f"input xs: [[[[u32; 1]; 1]; 1]; {count}];\noutput join(join(join(xs)))"
        told(folder, "lists in lists, the input", deep, file_of(lists))
        told(folder, "lists in lists that nobody asks for", SMALL, file_of("[1,2]", f',"more":{lists}'))
        objects, _ = many('{"a":1}')
        told(folder, "objects that nobody asks for", SMALL, file_of("[1,2]", f',"more":{objects}'))
        numbers, count = many("123456")
        flat = f"input xs: [u32; {count}];\noutput map(\\x. add(x, 1), xs)"
        told(folder, "numbers, the input", flat, file_of(numbers))


if __name__ == "__main__":
    main()
