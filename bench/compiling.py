#!/usr/bin/env python3
"""How the work of `lift compile` grows with the nodes of the last term.

usage: bench/compiling.py

Counts the instructions (valgrind --tool=callgrind) of `lift compile` on legal terms of one work-item, of some 512 to 4,000 nodes,
of four shapes. Prints them less those of a term of a few nodes, in all and per node.

Counted once: 9,500 to 9,800 instructions a node of the tree, 11,400 to 11,800 of the lets, 242,000 to 280,000 of the maps (whose
120 steps each copy and type the term), 9,600 to 10,200 under the layouts; none grows by more than a sixth from 512 nodes on.
"""
import tempfile
from pathlib import Path

from programs import HEAD, instructions, wide

TO_SEQ = "at . to-seq\n"


def sums(parts):
    """A balanced tree of sums of these terms."""
    if len(parts) == 1:
        return parts[0]
    middle = len(parts) // 2
    return f"add({sums(parts[:middle])}, {sums(parts[middle:])})"


def tree(nodes):
    """a wide tree of sums"""
    return HEAD + f"map(\\x. {wide(nodes - 2)}, xs)", TO_SEQ


def lets(nodes):
    """numbers bound one in another, 100 deep, side by side under a tree of sums"""
    def bound(count):
        names = ["x", *(f"y{k}" for k in range(count))]
        return "".join(f"let {names[k + 1]} = add({names[k]}, x) in " for k in range(count)) + names[count]

    count = (nodes - 2) // 4
    return HEAD + f"map(\\x. {sums([bound(min(100, count - k)) for k in range(0, count, 100)])}, xs)", TO_SEQ


def chain(nodes):
    """60 maps one over another, each over a private copy of what the one before makes"""
    maps = 60
    body = wide((nodes - 1) // maps - 3)
    text = "xs"
    for _ in range(maps):
        text = f"map(\\x. add(x, {body}), {text})"
    places = [".".join(["0"] * (2 * k)) for k in range(maps)]
    steps = [f"at {places[k - 1] + '.0' if k > 1 else '0'} private\n" if k else "" for k in range(maps)]
    to_seq = [f"at {place or '.'} to-seq\n" for place in places]
    return "input xs: [u32; 2];\noutput " + text, "".join(s + t for s, t in zip(steps, to_seq))


def layouts(nodes):
    """24 layouts one on another, read in a wide tree of sums"""
    text = "xs"
    for _ in range(12):
        text = f"join(split(1, {text}))"
    return HEAD + f"map(\\x. {wide(nodes - 26)}, {text})", TO_SEQ


def of_compile(folder, program, script):
    (folder / "p").write_text(program)
    (folder / "s").write_text(script)
    return instructions(folder, ["compile", folder / "p", folder / "s"])[0]


def main():
    with tempfile.TemporaryDirectory() as name:
        folder = Path(name)
        base = of_compile(folder, *tree(5))
        print(f"a map of few nodes takes {base / 1e6:.1f} million instructions")
        for shape in (tree, lets, chain, layouts):
            print(f"{shape.__doc__}:")
            for nodes in (512, 1024, 2048, 4000):
                more = of_compile(folder, *shape(nodes)) - base
                print(f"  {nodes} nodes: {more / 1e6:.0f} million more, {more / nodes:.0f} a node")


if __name__ == "__main__":
    main()
