#!/usr/bin/env python3
"""How the work of `lift run` grows with the events of the run.

usage: bench/running.py

Runs a program by one work-item, which sums N numbers in each of M rows, for 10^4, 10^5 and 10^6 events. Prints the instructions
(valgrind --tool=callgrind) of the device with its start, in all and an event, and those of all else in the same call, an event:
it reads M * N numbers, a third of the events, and writes M.

What was seen stands in README.md.
"""
import json
import tempfile
from pathlib import Path

from programs import on_device

PROGRAM = "size M from 1 to 1000;\nsize N from 1 to 1000;\ninput rows: [[u32; N]; M];\noutput join(map(\\r. fold(\\a x. add(a, x), 0, r), rows))"
SCRIPT = "at 0.1 fold-seq\nat 0 to-seq\n"


def main():
    with tempfile.TemporaryDirectory() as name:
        folder = Path(name)
        (folder / "p").write_text(PROGRAM)
        (folder / "s").write_text(SCRIPT)
        for rows, columns in ((10, 330), (30, 1000), (330, 1000)):
            launch = {"global": 1, "local": 1, "sizes": {"M": rows, "N": columns}, "inputs": {"rows": [[1] * columns] * rows}}
            (folder / "l").write_text(json.dumps(launch))
            device, rest, line = on_device(folder, ["run", folder / "p", folder / "s", folder / "l"])
            events = json.loads(line)["events"]
            print(f"{events} events: {device / 1e6:.1f} million instructions on the device, {device / events:.0f} an event, and {rest / events:.0f} outside", flush=True)


if __name__ == "__main__":
    main()
