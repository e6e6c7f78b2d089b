#!/usr/bin/env python3
"""How long `lift cost` takes by 65,536 work-items, whatever the sizes.

usage: bench/costing.py [CALLS]

Four terms, each at a small and at a great valuation: a map over the launch; sums of rows, whose matrix has up to 2,147,418,112
elements; a stencil by tiles, over groups; the same with a fixed local size. No inputs are given. Prints for each the least time of
CALLS calls, 20 if not told, without and with `--items`, from the start of the process to its end, and the instructions of a call
without `--items`, a work-item more (valgrind --tool=callgrind): they shouldn't grow with the sizes.

What was seen stands in README.md.
"""
import json
import sys
import tempfile
from pathlib import Path

from programs import instructions, seconds

EXAMPLES = Path(__file__).resolve().parent.parent / "examples"
ITEMS = 65_536

MAP = "size N from 1 to 1048576; input xs: [u32; N]; output map(\\x. add(x, 1), xs)", "at . to-glb"
ROWS = (
    "size M from 1 to 32767; size N from 1 to 65536; input xs: [[u32; N]; M]; output map(\\r. reduce(add, 0, r), xs)",
    "at 1 reduce-fold\nat 1 fold-seq\nat . to-glb",
)
STENCIL = (
    "size N multiple 64 from 64 to 1048576; input xs: [u32; N];"
    "output join(map(\\w. reduce(add, 0, w), slide(3, 1, pad(1, 1, xs))))",
    "at 0.0 tile-slide 64\nat 0 map-join\nat 0.0 fuse-map\nat 0.0.1 let-inline\nat 0.0.1.0.0 local-copy\n"
    "at 0.0.1.1 reduce-fold\nat 0.0.1.1 fold-seq\nat 0.0.1 to-lcl\nat 0.0 to-wrg",
)
FIXED = STENCIL[0], "launch local 64\n" + STENCIL[1]

TERMS = [
    ("map", MAP, 64, [{"N": 1}, {"N": 1_048_576}]),
    ("rows", ROWS, 64, [{"M": 1, "N": 1}, {"M": 32_767, "N": 65_536}]),
    ("tiles", STENCIL, 64, [{"N": 64}, {"N": 1_048_576}]),
    ("tiles of a fixed size", FIXED, 64, [{"N": 64}, {"N": 1_048_576}]),
]


def words(folder, term, local, items, sizes):
    """The words of a call, whose files are written."""
    program, script = term
    launch = {"global": items, "local": local, "sizes": sizes}
    texts = {"program.lift": program, "script.txt": script, "launch.json": json.dumps(launch)}
    for name, text in texts.items():
        (folder / name).write_text(text)
    return ["cost", *(folder / name for name in texts)]


def main(calls="20"):
    with tempfile.TemporaryDirectory() as name:
        folder = Path(name)
        for title, term, local, valuations in TERMS:
            for sizes in valuations:
                few, _ = instructions(folder, words(folder, term, local, local, sizes))
                asked = words(folder, term, local, ITEMS, sizes)
                many, wrote = instructions(folder, asked)
                alone, each = (seconds([*asked, *more], int(calls)) for more in ([], ["--items"]))
                print(
                    f"{title}, {sizes}: {1e3 * alone:.1f} ms, with --items {1e3 * each:.1f} ms; "
                    f"{(many - few) / (ITEMS - local):.0f} instructions a work-item; {wrote}",
                    end="",
                )


if __name__ == "__main__":
    main(*sys.argv[1:])
