#!/usr/bin/env python3
"""Refuses each growth of memory in turn, in calls of the built program, and looks at what it answers.

usage: bench/refused_growth.py [WORD]      with WORD just the calls whose name has it

gcc makes refused_growth.c a library, which is preloaded: it counts the calls that ask for memory, and refuses the one whose
number it is told. Each call of `lift` is first run without a refusal, and then once for each growth that it made. Its answer
has to be that of the run without, in status and both outputs; or the status 13, `lift: memory` and nothing on the standard
output. Another answer is printed, and makes the script end with the status 1.

Seen: in 18 calls 7,589 growths (`run` 289, traced 302, `compile` 213, the tiled stencil's 2,185, `steps` 156, `eval` 121,
`demo` 2,812, refused calls 45 to 369 each): 13 each time, but for one or two growths a call, where the answer was that
of the run without. Later in three calls with a fixed local size 5,060, and in three of `stages` and `run-stages` 1,574: 13
each time, but for four growths a call.
"""
import json
import os
import subprocess
import sys
import tempfile
from concurrent.futures import ThreadPoolExecutor
from pathlib import Path

from programs import LIFT

HERE = Path(__file__).resolve().parent
ADDED = "size N from 1 to 1000;\ninput xs: [u32; N];\noutput map(\\x. add(x, 1), xs)"
LAUNCH = {"global": 1, "local": 1, "sizes": {"N": 3}, "inputs": {"xs": [1, 2, 4294967295]}}
PAIR = {"global": 2, "local": 2}
STENCIL = HERE.parent / "examples" / "stencil"

# the files that the calls below name
FILES = {
    "p": ADDED,
    "s": "at . to-seq\n",
    "l": json.dumps(LAUNCH),
    "cut": ADDED[:54],
    "ill": "size N from 1 to 9; input xs: [u32; N]; output split(4, xs)",
    "sequence": "at . to-sequence\n",
    "nowhere": "at 7 copy\n",
    "copies": "at 0 copy\n" * 257,
    "empty": "",
    "kernels": "launch local 2\nat 0 copy\nat 0 to-glb\nat 0 then\nat . to-glb\n",
    "fewer": json.dumps({**LAUNCH, "inputs": {"xs": [1, 2]}}),
    "both": json.dumps({**LAUNCH, "launches": [PAIR, PAIR]}),
    "alone": json.dumps({**LAUNCH, "launches": [PAIR]}),
}

# the name of a call, its words, and the status of the run without a refusal
CALLS = [
    ("run", "run p s l", 0),
    ("traced run", "run p s l --trace", 0),
    ("compile", "compile p s", 0),
    ("steps", "steps p s", 0),
    ("eval", "eval p l", 0),
    ("stages", "stages p kernels", 0),
    ("run-stages", "run-stages p kernels both", 0),
    ("demo", "demo 7", 0),
    ("the tiled stencil's compile", f"compile {STENCIL}/program.lift {STENCIL}/tiled.txt", 0),
    ("the fixed stencil's run", f"run {STENCIL}/program.lift {STENCIL}/fixed.txt {STENCIL}/fixed.json", 0),
    ("status 2", "compile p", 2),
    ("status 2, a seed", "demo 07", 2),
    ("status 3", "compile p absent", 3),
    ("status 4", "compile p s", 4),
    ("status 6", "compile cut s", 6),
    ("status 7", "compile ill s", 7),
    ("status 8", "compile p sequence", 8),
    ("status 9", "compile p nowhere", 9),
    ("status 10", "compile p copies", 10),
    ("status 11", "compile p empty", 11),
    ("status 11, two kernels at a fixed size", "compile p kernels", 11),
    ("status 12", "run p s fewer", 12),
    ("status 12, one launch for two kernels", "run-stages p kernels alone", 12),
    ("status 12, another size than the fixed one", f"run {STENCIL}/program.lift {STENCIL}/fixed.txt {STENCIL}/tiled.json", 12),
]
OUT_OF_MEMORY = (13, b"", b"lift: memory\n")


def answer(folder, library, words, refused, full):
    """The status and both outputs of a call whose growth of this number is refused, and how many growths it made. With `full`
    its standard output is a device that is full."""
    count = folder / f"count{refused}"
    environment = {**os.environ, "LD_PRELOAD": str(library), "REFUSED_GROWTH": str(refused), "GROWTH_COUNT": str(count)}
    with open("/dev/full", "wb") as device:
        out = device if full else subprocess.PIPE
        done = subprocess.run([LIFT.resolve(), *words.split()], cwd=folder, env=environment, stdout=out, stderr=subprocess.PIPE, check=False)
    growths = int(count.read_text()) if count.exists() else 0
    count.unlink(missing_ok=True)
    return (done.returncode, done.stdout or b"", done.stderr), growths


def tried(folder, library, name, words, status):
    """Whether each growth's refusal is answered as it may be."""
    full = status == 4
    without, growths = answer(folder, library, words, 0, full)
    assert without[0] == status, (name, without)
    with ThreadPoolExecutor(os.cpu_count()) as pool:
        answers = list(pool.map(lambda number: answer(folder, library, words, number, full)[0], range(1, growths + 1)))
    others = [(number, it) for number, it in enumerate(answers, 1) if it not in (without, OUT_OF_MEMORY)]
    memory = sum(it == OUT_OF_MEMORY for it in answers)
    print(f"{name}: {growths} growths, {memory} answered 13, {growths - memory - len(others)} as without", flush=True)
    for number, it in others:
        print(f"  growth {number}: {it}")
    return not others


def main():
    wanted = sys.argv[1] if len(sys.argv) > 1 else ""
    with tempfile.TemporaryDirectory() as name:
        folder = Path(name)
        library = folder / "refused_growth.so"
        subprocess.run(["gcc", "-O2", "-shared", "-fPIC", "-o", library, HERE / "refused_growth.c"], check=True)
        for file, text in FILES.items():
            (folder / file).write_text(text)
        well = [tried(folder, library, *call) for call in CALLS if wanted in call[0]]
    sys.exit(0 if all(well) else 1)


if __name__ == "__main__":
    main()
