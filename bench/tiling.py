#!/usr/bin/env python3
"""How the work of `lift compile` grows with the layouts and with the phases of a tiled stencil.

usage: bench/tiling.py

Counts the instructions (valgrind --tool=callgrind) of `lift compile`, less those that the same program takes up to its nest: with
the script but for its last step, which makes the map over work-groups, the nest is refused. So what is counted is what the
compiler does behind the script: it judges the nest, plans, prints and writes. The shapes:

- a stencil by tiles which are copied to local memory, its input behind 1 to 24 layouts: joins of splits, pads, transpositions of
  transpositions, and reorderings (a join of a transposition of a split), which no law undoes, so that each doubles the index that
  the kernel has; reverses; strides and splits by turns, each stride of which doubles the index too;
- a stencil of a stencil of .. in one tile, 1 to 20 deep, each in local memory but the last: a phase and its barrier for each.

Prints the count in all, for each node of the last term more than in the first of its shape, and the bytes of the kernel.

Counted once, for each node more: joins of splits 46,000 at 2 layouts (the second is a pad), 28,800 at 6, 22,600 at 24; pads 46,000,
41,900 and 40,900; transpositions 46,000, 28,100 and 25,300; stencils in a tile 15,000 at 2 and 14,000 at 20. Reorderings 47,000 at
6 layouts, 570,000 at 24: there the kernel grows from 850 bytes to 14,200, and a byte of it costs 611 instructions and 942. Reverses 40,600 at 6, 43,000 at
24; strides and splits by turns as reorderings, 78,000 at 6 and 1,200,000 at 24, where the kernel has 14,200 bytes.
"""
import tempfile
from pathlib import Path

from programs import instructions

HEAD = "size N multiple 2 from 4 to 4096;\ninput xs: [u32; N];\noutput "


def behind_layouts(layouts, most, form):
    """A tiled stencil whose tiles are read through so many layouts, as many of a form as there is room for and pads, and the nodes of its last term."""
    source = "xs"
    forms, pads = divmod(layouts - 1, most)
    for _ in range(forms):
        source = form.format(source)
    for _ in range(pads):
        source = f"pad(0, 0, {source})"
    program = HEAD + f"join(map(\\w. reduce(add, 0, w), slide(3, 1, {source})))"
    tiles = ["0.0 tile-slide 2", "0 map-join", "0.0 fuse-map", "0.0.1 let-inline", "0.0.1.0.0 local-copy"]
    lowering = ["0.0.1.1 reduce-fold", "0.0.1.1 fold-seq", "0.0.1 to-lcl", "0.0 to-wrg"]
    return program, tiles + lowering, 16 + layouts


def deep(stencils):
    """Stencils one over another in a tile of two results, and the nodes of the last term."""
    tile = "t"
    for _ in range(stencils):
        tile = f"join(map(\\w. reduce(add, 0, w), slide(3, 1, {tile})))"
    program = HEAD + f"join(map(\\t. {tile}, slide({2 * stencils + 2}, 2, pad({stencils}, {stencils}, xs))))"
    script = []
    for k in range(stencils):
        place = "0.1" + ".0.0.0" * k
        script += [f"{place}.0.1 reduce-fold", f"{place}.0.1 fold-seq", f"{place}.0 to-lcl"]
    # from the innermost outwards, so that the places above a copy stay as they are
    script += [f"0.1{'.0.0.0' * k} local" for k in reversed(range(1, stencils))] + ["0 to-wrg"]
    return program, script, 5 + 10 * stencils


FORMS = [
    ("joins of splits", 2, "join(split(2, {}))"),
    ("pads", 1, "pad(0, 0, {})"),
    ("transpositions", 4, "join(transpose(transpose(split(2, {}))))"),
    ("reorderings", 3, "join(transpose(split(2, {})))"),
    ("reverses", 1, "reverse({})"),
    ("strides and splits by turns", 3, "join(split(2, stride(2, {})))"),
]
SHAPES = [
    (f"layouts, {told}", lambda layouts, most=most, form=form: behind_layouts(layouts, most, form), (1, 2, 6, 12, 18, 24))
    for told, most, form in FORMS
] + [("stencils in a tile", deep, (1, 2, 4, 8, 16, 20))]


def behind_the_script(folder, program, steps):
    """The instructions that the whole script takes more than the script without its last step, and the bytes of the kernel."""
    (folder / "p").write_text(program)
    words = ["compile", folder / "p", folder / "s"]
    counts, kernels = [], []
    for script, status in ((steps, 0), (steps[:-1], 11)):
        (folder / "s").write_text("".join(f"at {it}\n" for it in script))
        count, kernel = instructions(folder, words, status)
        counts.append(count)
        kernels.append(kernel)
    return counts[0] - counts[1], len(kernels[0])


def main():
    with tempfile.TemporaryDirectory() as name:
        folder = Path(name)
        for told, shape, numbers in SHAPES:
            first = None
            for number in numbers:
                program, script, nodes = shape(number)
                work, size = behind_the_script(folder, program, script)
                more = f", {(work - first[0]) / (nodes - first[1]):.0f} for each node more" if first else ""
                first = first or (work, nodes)
                print(f"{number} {told}, {nodes} nodes: {work} instructions{more}; {size} bytes", flush=True)


if __name__ == "__main__":
    main()
