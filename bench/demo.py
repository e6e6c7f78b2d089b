#!/usr/bin/env python3
"""How long `lift demo 7` takes, and how many events it makes in a second.

usage: bench/demo.py [CALLS]

The demo compiles the tiled stencil of 4,096 numbers and runs it by 256 work-items along a seed's schedule. Prints the line of
`lift demo 7`; the least time of CALLS calls, 100 if not told, from the start of the process to its end, and the events that are in
a second so; the instructions of a call an event (valgrind --tool=callgrind), and of them those of the device with its start. The
others read, rewrite, judge, plan, print and read back.

What was seen stands in README.md.
"""
import re
import sys
import tempfile
from pathlib import Path

from programs import on_device, seconds

WORDS = ["demo", "7"]


def main(calls="100"):
    with tempfile.TemporaryDirectory() as name:
        device, rest, line = on_device(Path(name), WORDS)
    events = int(re.search(r"events (\d+)", line).group(1))
    spent = seconds(WORDS, int(calls))
    print(line, end="")
    print(f"{1e3 * spent:.1f} ms, {events / spent / 1e6:.1f} million events a second, {(device + rest) / events:.0f} instructions an event, {device / events:.0f} of them on the device")


if __name__ == "__main__":
    main(*sys.argv[1:])
