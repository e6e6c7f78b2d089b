#!/usr/bin/env python3
"""What `lift eval` takes beside `lift run` on one input.

usage: bench/eval_beside_run.py

For the three strategies of examples/stencil at 4,096 numbers: the instructions (valgrind --tool=callgrind) and the least
time of three calls of `eval` and of `run`, and the events of the run. Reading the launch file and writing the value are in
both; reading the script, printing the kernel and reading it back only in `run`. `run` pays for each event and `eval` for
each element that it forms, so their ratio says how much dearer it is to follow every work-item than to know the value.

Counted once: eval 13.2 million instructions; run 29.5 (sequential, 53,249 events), 33.8 (global, 53,504) and 183 (tiled, 278,784).
"""
import json
import tempfile
from pathlib import Path

from programs import instructions, seconds

STENCIL = Path(__file__).resolve().parent.parent / "examples" / "stencil"
COUNT = 4096
ITEMS = {"sequential": (1, 1), "global": (256, 32), "tiled": (256, 32)}


def main():
    program = STENCIL / "program.lift"
    with tempfile.TemporaryDirectory() as name:
        folder = Path(name)
        launch = folder / "launch.json"
        for strategy, (items, group) in ITEMS.items():
            numbers = [k * 2654435761 % 2**32 for k in range(COUNT)]
            launch.write_text(json.dumps({"global": items, "local": group, "sizes": {"N": COUNT}, "inputs": {"xs": numbers}}))
            evaluation, run = ["eval", program, launch], ["run", program, STENCIL / f"{strategy}.txt", launch]
            known, _ = instructions(folder, evaluation)
            followed, line = instructions(folder, run)
            times = 1e3 * seconds(evaluation, 3), 1e3 * seconds(run, 3)
            print(f"{strategy}: {json.loads(line)['events']} events, {followed / known:.1f} times as many instructions as eval")
            for command, work, spent in (("eval", known, times[0]), ("run", followed, times[1])):
                print(f"  {command}: {work / 1e6:.1f} million instructions, {spent:.1f} ms", flush=True)


if __name__ == "__main__":
    main()
