#!/usr/bin/env python3
"""What an event of `lift run` costs as the work-items grow in number.

usage: bench/items.py [CALLS]

Runs a map over the launch that adds 1 to each number, of 10^6 events in all, by 1, 64, 4,096 and 65,536 work-items, in order and
along a seed's schedule: each item has three events for each of its numbers, and one that ends it. So 978,000 to 1,000,000 events
go over 311,000 to 333,000 numbers, which a launch file of 10^6 bytes gives and a line of 670,000 bytes tells. Prints for each

- the instructions of the device, with the start of each work-item, an event (valgrind --tool=callgrind);
- those of all else in the same call, an event: reading the program, the script, the kernel and the launch file, and writing the
  result;
- the events in a second of the whole call of `lift run`, as its process is started and ended: the fastest of CALLS, 15 if not told.

What was seen stands in README.md.
"""
import json
import sys
import tempfile
from pathlib import Path

from programs import on_device, seconds

PROGRAM = "size N from 1 to 1000000;\ninput xs: [u32; N];\noutput map(\\x. add(x, 1), xs)"
EVENTS = 10**6
ITEMS = ((1, 1), (64, 64), (4096, 256), (65536, 256))
SCHEDULES = (("in order", []), ("from a seed", {"seed": 7}))


def main(calls="15"):
    with tempfile.TemporaryDirectory() as name:
        folder = Path(name)
        program, script, launch = folder / "p", folder / "s", folder / "l"
        program.write_text(PROGRAM)
        script.write_text("at . to-glb\n")
        for items, group in ITEMS:
            turns = (EVENTS - items) // 3
            for told, schedule in SCHEDULES:
                given = {"global": items, "local": group, "sizes": {"N": turns}, "inputs": {"xs": [1] * turns}, "schedule": schedule}
                launch.write_text(json.dumps(given))
                run = ["run", program, script, launch]
                device, rest, line = on_device(folder, run)
                events = json.loads(line)["events"]
                fastest = seconds(run, int(calls))
                print(f"{items} work-items, {told}: {events} events, {device / events:.0f} instructions an event on the device and {rest / events:.0f} outside, {events / fastest / 1e6:.1f} million events a second", flush=True)


if __name__ == "__main__":
    main(*sys.argv[1:])
