#!/usr/bin/env python3
"""Checks the places that tools/places.py shows by what the built program does there.

    examples/places_check.py [PROGRAM]      PROGRAM is ./lift where none is given

Runs `lift steps` on every example, and on each rule's row in docs/RULES.md. Each term's tree has
to have the term's text. A step `at PLACE RULE` has to change the node that the tree shows at PLACE
and nothing outside it, and for the rules of LOWERED that node has to be the rule's form.
"""
import os
import re
import subprocess
import sys
import tempfile
from pathlib import Path

EXAMPLES = Path(__file__).resolve().parent
sys.path.insert(0, str(EXAMPLES.parent / "tools"))
from places import named, nodes, parsed, tree

RULES = EXAMPLES.parent / "docs" / "RULES.md"
LOWERED = {
    "to-glb": ("map", "mapGlb"),
    "to-wrg": ("map", "mapWrg"),
    "to-lcl": ("map", "mapLcl"),
    "to-glb1": ("map", "mapGlb1"),
    "to-wrg1": ("map", "mapWrg1"),
    "to-lcl1": ("map", "mapLcl1"),
    "to-seq": ("map", "mapSeq"),
    "fold-seq": ("fold", "foldSeq"),
    "reduce-fold": ("reduce", "fold"),
}
# a term with each form, and places that were counted by hand
COUNTED = [
    ("map(\\_0. add(_0, 1), xs)", {".": "map \\_0", "0": "xs", "1": "add", "1.1": "1"}),
    ("reduce(add, 5, xs)", {"0": "xs", "1": "5"}),
    ("fold(\\_0 _1. sub(_0, _1), 5, xs)", {"0": "xs", "1": "5", "2": "sub", "2.1": "_1"}),
    ("let _0 = xs in zip(_0, ys)", {"0": "xs", "1": "zip", "1.0": "_0", "1.1": "ys"}),
    ("split(2*N, pad(1, 2, slide(3, 1, xs)))", {".": "split 2*N", "0": "pad 1 2", "0.0.0": "xs"}),
    ("stride(4, reverse(xs))", {".": "stride 4", "0": "reverse", "0.0": "xs"}),
    ("select(div(1, 2), rem(3, 4), 5)", {"0": "div 2", "0.0": "1", "1.0": "3", "2": "5"}),
]


def steps_of(script):
    """Each step of a script's text, as its place and its rule."""
    lines = [line.split() for line in script.splitlines()]
    return [(words[1], words[2]) for words in lines if words[:1] == ["at"]]


def outside(term, place):
    """What stands outside a place: each other node that isn't below it."""
    return [
        (at, node.label())
        for at, node in nodes(term)
        if not (named(at) == place or place == "." or named(at).startswith(place + "."))
    ]


def wrong_step(before, after, place, rule):
    """Why the places of two terms that one step parts can't be right, or None."""
    here = [{named(at): node for at, node in nodes(term)}.get(place) for term in (before, after)]
    if None in here:
        return "no such place"
    if here[0].text() == here[1].text():
        return "nothing changed there"
    if outside(before, place) != outside(after, place):
        return "something outside it changed"
    if LOWERED.get(rule, (here[0].form, here[1].form)) != (here[0].form, here[1].form):
        return f"{here[0].form} became {here[1].form}"
    return None


def wrong_in(lines, script):
    """What is wrong with the trees of the lines of `lift steps` for a script's text."""
    terms, steps = [parsed(line) for line in lines], steps_of(script)
    for line, term in zip(lines, terms):
        if term.text() != line:
            yield f"the tree of {line} has the text {term.text()}"
    if len(terms) != len(steps) + 1:
        yield f"{len(terms)} terms for {len(steps)} steps"
    for before, after, (place, rule) in zip(terms, terms[1:], steps):
        why = wrong_step(before, after, place, rule)
        if why:
            yield f"at {place} {rule}: {why}"


def rows_of_rules():
    """The table of docs/RULES.md that has each rule at work: a program's text and a script's."""
    page = RULES.read_text()
    head = re.search(r"on the term behind `([^`]*)`", page).group(1)
    rows = re.findall(r"^\| `(at [^`]*)` \| `([^`]*)` \| `[^`]*` \|$", page, re.M)
    return [(f"{head} {term}", step) for step, term in rows]


def called(program, source, script):
    """The lines of `lift steps`, none where it refuses."""
    words = [program, "steps", source, script]
    return subprocess.run(words, capture_output=True, text=True).stdout.splitlines()


def cases(program):
    """A name, the lines of `lift steps` and the script's text of each example and each rule."""
    for script in sorted(EXAMPLES.glob("*/*.txt")):
        lines = called(program, script.parent / "program.lift", script)
        yield str(script.relative_to(EXAMPLES)), lines, script.read_text()
    with tempfile.TemporaryDirectory() as folder:
        source, script = Path(folder, "program.lift"), Path(folder, "script.txt")
        for term, step in rows_of_rules():
            source.write_text(term)
            script.write_text(step)
            yield f"docs/RULES.md, {step}", called(program, source, script), step


def wrong_counts():
    """The places of COUNTED that the trees have otherwise."""
    for text, wanted in COUNTED:
        shown = dict(line.split(maxsplit=1) for line in tree(parsed(text)))
        for place, label in wanted.items():
            if shown.get(place) != label:
                yield f"{text}: {shown.get(place)} at {place}, and {label} stands there"


def main():
    program = Path(sys.argv[1] if len(sys.argv) > 1 else EXAMPLES.parent / "lift").resolve()
    if not os.access(program, os.X_OK):
        sys.exit(f"examples/places_check.py: there is no program {program}")
    wrong, count = list(wrong_counts()), 0
    for count, (name, lines, script) in enumerate(cases(program), 1):
        wrong += [f"{name}: {why}" for why in wrong_in(lines, script)]
    print("\n".join([*wrong, f"places: {count} scripts and rules, {len(wrong)} faults"]))
    return bool(wrong) or not count


if __name__ == "__main__":
    sys.exit(main())
