#!/usr/bin/env python3
"""Names each line that cites the proofs of another crate of this repository, where that crate's
public laws are to be cited. The proofs of `FREE` are laws of definitions, public on purpose."""
import re
import sys
from pathlib import Path

FREE = {
    "group_form",
    "group_phases",
    "kernel_tree",
    "lift_ir",
    "lift_tree",
    "printed_form",
    "readings",
    "rewriting",
    "scalar_ops",
    "size_arith",
    "stages",
    "term_traffic",
}
CRATES = Path(__file__).resolve().parent.parent / "crates"
CITES = re.compile(r"\bRattle\.(\w+)\.proofs\.")


def cited(crate: Path):
    """Each citation of a crate's files: the file, the line's number, the crate that is cited."""
    for part in ("specs", "proofs", "src"):
        for file in sorted((crate / part).rglob("*")):
            if file.suffix in (".antt", ".rt"):
                for number, line in enumerate(file.read_text().splitlines(), 1):
                    for name in CITES.findall(line):
                        yield file, number, name


def main() -> int:
    """Prints the lines, and answers how many there are, at most 1."""
    ours = {crate.name for crate in CRATES.iterdir()}
    found = [
        f"{file.relative_to(CRATES)}:{number}: cites the proofs of {name}"
        for crate in sorted(CRATES.iterdir())
        for file, number, name in cited(crate)
        if name != crate.name and name in ours - FREE
    ]
    print("\n".join([*found, f"imports.py: {len(found)} lines cite other crates' proofs"]))
    return min(len(found), 1)


if __name__ == "__main__":
    sys.exit(main())
