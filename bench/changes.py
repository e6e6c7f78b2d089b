#!/usr/bin/env python3
"""How many files a change touches: those that name the last one of its kind that came.

usage: bench/changes.py [--list]

For a rewrite rule, a statement of kernels, an operator, a layout and the like it counts, crate by
crate, the files of code, definitions and proofs in which the named one stands by one of its names;
those of the tests crates and the must-fail edits apart. With --list the files too. No program is
needed.

It is a count from above: a file that names it may not have to change for another one, as a proof
that says what a transposition is; and one that handles it by a name for all the rest isn't counted.
"""
import re
import sys
from collections import Counter
from pathlib import Path

TOP = Path(__file__).resolve().parent.parent
CODE = (".rt", ".antt")
# a change, the one that is looked for, and the names that it has in files
CHANGES = [
    ("a rewrite rule", "vector-scalar", r"\bVectorScalar\b|vector-scalar|\bvectors_again\b"),
    ("a statement of kernels", "vload4", r"\bLoadFour\b|\bLoadsFour\b|vload4"),
    ("an id form", "get_num_groups", r"\bGroupCount\b|get_num_groups"),
    ("an operator", "xor", r"\bXor\b|\"xor\""),
    ("a layout", "asScalar", r"\bAsScalar\b|asScalar"),
    ("a layout that is only read", "slide", r"\bSlide\b|\"slide\""),
    ("a kind of map", "mapSeq", r"\bSequential\b|mapSeq"),
    ("an element type", "u32x4", r"\bU32x4\b|\bTy::Vector\b|u32x4"),
    ("a rule of the nest", "N15", r"\bN15\b"),
    ("a refusal of launch files", "no task", r"\bNotTask\b"),
    ("a command", "run-stages", r"\bRunStages\b|\brun_stages(_text)?\b|run-stages"),
]


def crate_of(path):
    return path.relative_to(TOP / "crates").parts[0]


def kind_of(path):
    """Whether a file is an edit that must fail, a test, or anything else."""
    if path.suffix == ".edit":
        return "edits"
    return "tests" if crate_of(path).endswith("_tests") else "files"


def files():
    """Each file of a crate that is written by hand, with its text."""
    for path in sorted((TOP / "crates").glob("*/*/**/*")):
        made = "out" in path.relative_to(TOP / "crates").parts
        if path.suffix in (*CODE, ".edit") and not made:
            yield path, path.read_text()


def naming(texts, pattern):
    """The files in which a name stands, by kind."""
    found = {"files": [], "tests": [], "edits": []}
    for path, text in texts:
        if re.search(pattern, text):
            found[kind_of(path)].append(path)
    return found


def row(change, named, found):
    """A line of what is printed: the counts, and the crates with those of their files."""
    crates = Counter(map(crate_of, found["files"]))
    told = ", ".join(f"{crate} {count}" for crate, count in crates.most_common())
    counts = f"{len(found['files'])} files in {len(crates)} crates"
    apart = f"{len(found['tests'])} of tests, {len(found['edits'])} edits"
    return f"{change} ({named}): {counts}; {apart}\n  {told}"


def main():
    if sys.argv[1:] not in ([], ["--list"]):
        sys.exit(__doc__)
    texts = list(files())
    for change, named, pattern in CHANGES:
        found = naming(texts, pattern)
        print(row(change, named, found))
        if sys.argv[1:]:
            paths = sorted(path for some in found.values() for path in some)
            print("\n".join(f"    {path.relative_to(TOP)}" for path in paths))


if __name__ == "__main__":
    main()
