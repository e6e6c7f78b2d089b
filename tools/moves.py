#!/usr/bin/env python3
"""The steps that can be made at each place of a term.

    tools/moves.py PROGRAM [SCRIPT] [--at PLACE] [--copies] [--numbers K,..]

A line is a place of the term behind SCRIPT, its node, and the rules that can be made there, each
tried by `lift steps`; a rule with a number has those with which it can be made. The last line is
what `lift stages` says of the term as it is: of a kernel its first line. Rules for any array
(copies, memory, cuts) are left out but for --copies. The environment's LIFT names the program; if
it isn't set, it is the one that ./lift built.
"""
import argparse
import math
import sys

import calls
import grammar
import places
from rules import Rule, fits, rules
from term_types import Array, Type, types_of

POWERS = [2**k for k in range(1, 9)]
DIVISORS_MOST = 64


def numbers_for(node: places.Node, types: dict[int, Type], sizes: dict) -> list[int]:
    """Numbers to try at a node: powers of two, and what divides its array's length at all sizes."""
    array = types.get(id(node.children[0])) if node.children else None
    shared = divisor(array, sizes) if isinstance(array, Array) else 0
    own = [k for k in range(2, min(shared, DIVISORS_MOST) + 1) if shared % k == 0]
    return sorted({*POWERS, *own})


def divisor(array: Array, sizes: dict[str, grammar.Size]) -> int:
    """A number that divides an array's length at all sizes; 0 where there is none to be told."""
    shared = 0
    for names, coefficient in array.length.terms.items():
        part = coefficient * math.prod(sizes[name].multiple for name in names)
        if part.denominator > 1:
            return 0
        shared = math.gcd(shared, part.numerator)
    return shared


class Moves:
    """A term behind a script's text, and what can be made at its places."""

    def __init__(self, program: str, script: str, numbers: list[int], copies: bool):
        self.program, self.script, self.numbers = program, script, numbers
        self.rules = [it for it in rules().values() if copies or not it.is_for_any_array]
        self.term = calls.last_term(program, script)
        read = grammar.read(calls.text_of(program))
        self.sizes, self.types = read.sizes, types_of(read, self.term)

    def can_be_made(self, place: tuple[int, ...], rule: str) -> bool:
        step = f"at {places.named(place)} {rule}\n"
        try:
            calls.with_script("steps", self.program, self.script + step)
        except calls.Refused:
            return False
        return True

    def told(self, place: tuple[int, ...], node: places.Node, rule: Rule) -> str:
        """The rule at a place, with the numbers with which it can be made; empty where it can't."""
        if not fits(rule.shape, node):
            return ""
        if not rule.numbered:
            return rule.name if self.can_be_made(place, rule.name) else ""
        tried = self.numbers or numbers_for(node, self.types, self.sizes)
        good = [str(k) for k in tried if self.can_be_made(place, f"{rule.name} {k}")]
        return f"{rule.name} {'|'.join(good)}" if good else ""

    def rows(self, wanted: str | None):
        """Each place where something can be made: its name, its node, and the rules."""
        for place, node in places.nodes(self.term):
            if wanted in (None, places.named(place)):
                found = [told for rule in self.rules if (told := self.told(place, node, rule))]
                if found or wanted:
                    yield places.named(place), node.label(), ", ".join(found) or "nothing"


def verdict(program: str, script: str) -> str:
    """What `stages` says of the term: its line, or the kernel's first."""
    try:
        return calls.with_script("stages", program, script).splitlines()[0]
    except calls.Refused as refused:
        return refused.line


def numbers_of(text: str) -> list[int]:
    return [int(it) for it in text.split(",")]


def main():
    usage = argparse.ArgumentParser(
        description=__doc__, formatter_class=argparse.RawDescriptionHelpFormatter
    )
    usage.add_argument("program", metavar="PROGRAM")
    usage.add_argument("script", metavar="SCRIPT", nargs="?")
    usage.add_argument("--at", metavar="PLACE", help="that place alone")
    usage.add_argument("--copies", action="store_true", help="rules for any array, too")
    usage.add_argument("--numbers", type=numbers_of, default=[], metavar="K,..", help="to be tried")
    words = usage.parse_args()
    script = calls.text_of(words.script).rstrip("\n") + "\n" if words.script else ""
    try:
        moves = Moves(words.program, script, words.numbers, words.copies)
    except calls.Refused as refused:
        sys.exit(f"{refused.line}; tools/why.py explains it")
    rows = list(moves.rows(words.at))
    widths = [max([len(row[k]) for row in rows], default=0) + 2 for k in range(2)]
    for place, label, found in rows:
        print(f"{place:<{widths[0]}}{label:<{widths[1]}}{found}")
    print(verdict(words.program, script))


if __name__ == "__main__":
    main()
